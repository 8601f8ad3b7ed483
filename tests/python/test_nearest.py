"""The job nearest to trouble, on plain values: the room of each job, the order of the list, each refusal, and the lent list."""

import ctypes
import itertools
import random
import unittest

import ramyearly
from ramyearly import archive, operations, tables
from ramyearly.calls import Call
from ramyearly.parameters import Parameters
from definitions import altered_by_definition, lengthened, nearest_by_definition, overfull_by_definition, random_jobs
from definitions import random_levels
from faults import TABLE_FAULTS, jobs_of
from support import PAIR, TWO_JOBS

T = [(2, 10), (4, 20)]
JOBS = [(0, 4, 6), (2, 3, 4)]
LIMIT = 1_000_000


def small_site(draw):
    """Levels and a few jobs of few cycles, of which some make no window overfull."""
    levels = [(0, 0), (draw.randint(1, 3), 10), (draw.randint(4, 9), 20)][draw.randrange(2) :]
    jobs = []
    for _ in range(draw.randint(1, 5)):
        release = draw.randrange(6)
        jobs.append((release, release + draw.randint(1, 5), draw.randint(1, 12)))
    return levels, jobs


def crowded_jobs():
    """Sixty-four jobs that share most of their ticks, and lie in each other's windows."""
    return [(3 * job, LIMIT - 5 * job, 7_000_000 - 90_000 * (job % 7)) for job in range(64)]


class Answers(unittest.TestCase):
    def test_the_sites_of_the_design(self):
        """Document 01's listed site first."""
        for jobs, rooms in (
            ([(0, 4, 6), (2, 3, 4)], [(1, 0), (0, 6)]),
            ([(0, 2, 4), (1, 2, 1)], [(0, 3), (1, 3)]),
            ([(0, 3, 1), (0, 2, 2), (0, 1, 1)], [(2, 3), (1, 5), (0, 8)]),
            ([(0, 2, 4), (1, 2, 1), (0, 3, 1)], [(0, 3), (1, 3), (2, 6)]),
            ([(0, 1, 1), (0, 3, 1)], [(0, 3), (1, 10)]),
            ([(0, 1, 1), (1, 2, 4)], [(1, 0), (0, 3)]),
            ([(0, 3, 7), (1, 2, 2), (0, 2, 2)], [(0, 1), (1, 1), (2, 1)]),
        ):
            self.assertEqual(ramyearly.nearest(T, jobs), rooms)
            self.assertEqual(nearest_by_definition(T, jobs), rooms)

    def test_no_jobs(self):
        self.assertEqual(ramyearly.nearest(T, []), [])
        self.assertEqual(ramyearly.nearest([(0, 0), *T], [], highest=1, free=LIMIT, margin=100), [])

    def test_one_job(self):
        for job, room in (((0, 1, 4), 0), ((0, 1, 3), 1), ((5, 7, 1), 7), ((LIMIT - 1, LIMIT, 1), 3)):
            self.assertEqual(ramyearly.nearest(T, [job]), [(0, room)])

    def test_other_windows_than_the_own(self):
        """The first two have 4 cycles to spare in their own windows, and together none; the last has the fullest window."""
        jobs = [(0, 6, 20), (4, 10, 20), (12, 14, 7)]
        self.assertEqual([ramyearly.spare(T, jobs, *job[:2]) for job in jobs], [4, 4, 1])
        self.assertEqual(ramyearly.nearest(T, jobs), [(0, 0), (1, 0), (2, 1)])

    def test_ties_by_job_number(self):
        jobs = [(0, 2, 1), (10, 12, 3), (20, 22, 1), (30, 32, 3), (40, 42, 1)]
        for order in itertools.permutations(jobs):
            rooms = [(number, 8 - cycles) for number, (_, _, cycles) in enumerate(order)]
            self.assertEqual(ramyearly.nearest(T, order), sorted(rooms, key=lambda found: found[::-1]))
        self.assertEqual(ramyearly.nearest(T, [(0, 64, 1)] * 64), [(number, 192) for number in range(64)])

    def test_by_definition(self):
        """Cycles are added one by one, and each window is tested."""
        draw, found, tied = random.Random(15), [], 0
        while len(found) < 400:
            levels, jobs = small_site(draw)
            if overfull_by_definition(levels, jobs) is None:
                rooms = ramyearly.nearest(levels, jobs)
                self.assertEqual(rooms, nearest_by_definition(levels, jobs))
                found.append(rooms)
                tied += len({room for _, room in rooms}) < len(rooms)
        self.assertGreater(tied, 100)
        self.assertGreater(sum(rooms[0][1] == 0 for rooms in found), 20)

    def test_one_more_is_too_many(self):
        """With all its room a job has a plan, and with one cycle more some window is overfull. Marks play no part."""
        draw, tried = random.Random(16), 0
        sites = [([(500, 100)], crowded_jobs())]
        sites += [(random_levels(draw, draw.randint(1, 7)), random_jobs(draw)) for _ in range(60)]
        for levels, jobs in sites:
            if overfull_by_definition(levels, jobs) is None:
                rooms = ramyearly.nearest(levels, jobs)
                for number, room in draw.sample(rooms, min(len(rooms), 3)):
                    longer = lengthened(jobs, number, room)
                    self.assertTrue(ramyearly.plan(levels, longer, marks=[3, 5]).steps)
                    self.assertEqual(dict(ramyearly.nearest(levels, longer))[number], 0)
                    with self.assertRaises(ramyearly.Overfull) as caught:
                        ramyearly.nearest(levels, lengthened(jobs, number, room + 1))
                    self.assertEqual(caught.exception.spare, -1)
                    tried += 1
        self.assertGreater(tried, 60)

    def test_at_the_limits(self):
        """The most cycles that there can be: a job with all its room has the most that a table may have."""
        self.assertEqual(ramyearly.nearest([(1000, 500)], [(0, LIMIT, 1)]), [(0, 10**9 - 1)])
        jobs = [(0, LIMIT, 10**9 - 1001), (999_999, LIMIT, 1)]
        self.assertEqual(ramyearly.nearest([(1000, 500)], jobs), [(1, 999), (0, 1000)])

    def test_the_largest_site(self):
        rooms = ramyearly.nearest([(500, 100)], crowded_jobs())
        self.assertEqual(sorted(number for number, _ in rooms), [*range(64)])
        self.assertEqual([room for _, room in rooms], sorted(room for _, room in rooms))

    def test_levels(self):
        """Only the top frequency has a part in it: no voltage, no idle draw and no level that is dropped."""
        expected = ramyearly.nearest([(4, 20)], JOBS)
        for levels in (T, [(0, 0), *T], [(2, 20), (4, 20)], [(0, 1), (3, 400), (4, 500)]):
            self.assertEqual(ramyearly.nearest(levels, JOBS), expected)

    def test_parameters(self):
        """Each alone, and all: added cycles come on top of those with the margin."""
        levels, jobs = [(10, 10), (20, 20)], [(0, 10, 31), (2, 9, 30)]
        for given, rooms in (
            ({}, [(1, 110), (0, 139)]),
            ({"highest": 2, "free": 0, "margin": 0}, [(1, 110), (0, 139)]),
            ({"highest": 1}, [(0, 39), (1, 39)]),
            ({"free": 3}, [(1, 50), (0, 79)]),
            ({"margin": 50}, [(1, 95), (0, 108)]),
            ({"highest": 1, "free": 1, "margin": 1}, [(0, 27), (1, 27)]),
        ):
            self.assertEqual(ramyearly.nearest(levels, jobs, **given), rooms)
            altered = altered_by_definition(levels, jobs, **{"highest": 2, "free": 0, "margin": 0, **given})
            self.assertEqual(ramyearly.nearest(*altered), rooms)


SOUND = Call(PAIR, TWO_JOBS)
# For each refusal in the order of the operation what is replaced in the sound call, the place, and the words.
FAULTS = {
    1: (TABLE_FAULTS[1], 0, "levels: 1 byte, but the sizes alone take 2 (refusal 1)"),
    2: (TABLE_FAULTS[2], 0, "levels: 0 levels, but a table has 1 to 8 (refusal 2)"),
    3: (TABLE_FAULTS[3], 0, "levels: 11 bytes, but levels number 2, which takes 10 (refusal 3)"),
    31: (TABLE_FAULTS[31], 0, "levels: the idle entry stands alone: no level follows it (refusal 31)"),
    4: (TABLE_FAULTS[4], 1, "levels: frequency 300 is not above 300 before it (refusal 4, entry 1)"),
    5: (TABLE_FAULTS[5], 1, "levels: voltage 9 is below 10 before it (refusal 5, entry 1)"),
    32: (
        TABLE_FAULTS[32],
        1,
        "levels: idling's power 1000 (1,000 x draw 1) is not below the first running level's power 200 (2 x 10 x 10) "
        "(refusal 32, entry 1)",
    ),
    6: (TABLE_FAULTS[6], 0, "jobs: 0 bytes, but the sizes alone take 2 (refusal 6)"),
    7: (TABLE_FAULTS[7], 0, "jobs: 65 jobs, but a table has at most 64 (refusal 7)"),
    8: (TABLE_FAULTS[8], 0, "jobs: 25 bytes, but jobs number 2, which takes 26 (refusal 8)"),
    9: (TABLE_FAULTS[9], 1, "jobs: release 3 is not before deadline 3 (refusal 9, entry 1)"),
    10: (TABLE_FAULTS[10], 1, "jobs: cycles 0 are not in range (1 to 1,000,000,000) (refusal 10, entry 1)"),
    35: ({"parameters": Parameters(margin=101)}, 0, "margin 101 is not in range (0 to 100 percent) (refusal 35)"),
    36: (
        {"parameters": Parameters(free=1)},
        1,
        "jobs: nothing is left of the window of job 1: deadline 3 less 1 tick kept free is not after release 2 (refusal 36, job 1)",
    ),
    11: (
        jobs_of((0, 4, 6), (2, 3, 5)),
        0,
        "jobs: overfull: from 2 to 3 job 1 needs 1 cycle more than the top frequency gives (refusal 11, window 2 to 3, spare -1)",
    ),
}


def ask(call):
    """The archive's answer to a call, with a list as long as it wants it."""
    return archive.nearest(call.levels, call.jobs, call.parameters)[0]


def fields_of(answer):
    return tuple(getattr(answer, name) for name, _ in answer._fields_)


class Refusals(unittest.TestCase):
    def refused(self, call):
        with self.assertRaises(ramyearly.Refused) as caught:
            operations.nearest_of(call.levels, call.jobs, call.parameters)
        return caught.exception

    def test_each_in_words(self):
        self.assertEqual(sorted(FAULTS), [*range(1, 12), 31, 32, 35, 36])
        for number, (fault, place, said) in FAULTS.items():
            refusal = self.refused(SOUND._replace(**fault))
            self.assertEqual((refusal.number, refusal.place, str(refusal)), (number, place, said))

    def test_their_order(self):
        """Levels before jobs, both before the parameters, and all of these before an overfull window."""
        for (first, (fault, place, _)), (later, (other, _, _)) in itertools.combinations(FAULTS.items(), 2):
            if set(fault) != set(other):
                answer = ask(SOUND._replace(**fault, **other))
                self.assertEqual((answer.number, answer.place), (first, place), later)
        # 35 before 36, whichever parameter it is about, and 36 before 11.
        for parameters in (Parameters(9, 1, 0), Parameters(0, 1, 0), Parameters(2, LIMIT + 1, 0), Parameters(2, 1, 101)):
            self.assertEqual(ask(SOUND._replace(parameters=parameters)).number, 35)

    def test_overfull(self):
        """The earliest window, its spare and its own jobs, as planning answers them."""
        draw, found = random.Random(17), 0
        for _ in range(300):
            levels, jobs = small_site(draw)
            window = overfull_by_definition(levels, jobs)
            lent = operations.level_table(levels), operations.job_table(jobs)
            answer, planned = archive.nearest(*lent)[0], archive.plan(*lent, tables.NO_MARKS)[0]
            if window is None:
                self.assertEqual(fields_of(answer), (0, 0, 0, 0, 0, 2 * len(jobs)))
            else:
                self.assertEqual(fields_of(answer), (11, 0, *window, 0))
                self.assertEqual((planned.number, planned.start, planned.end, planned.spare), (11, *window))
                found += 1
        self.assertTrue(50 < found < 250)
        with self.assertRaises(ramyearly.Overfull) as caught:
            ramyearly.nearest(T, [(0, 3, 3), (5, 7, 1), (0, 3, 3), (0, 3, 3)], free=1, margin=20)
        refusal = caught.exception
        self.assertEqual((refusal.start, refusal.end, refusal.spare, refusal.inside), (0, 2, -4, [0, 2, 3]))
        more = "jobs 0, 2 and 3 need 4 cycles more than the top frequency gives, with free 1, margin 20"
        self.assertEqual(str(refusal), f"jobs: overfull: from 0 to 2 {more} (refusal 11, window 0 to 2, spare -4)")

    def test_damaged_tables(self):
        """Bytes of any content and any three numbers: refused as by the spare of a window, and then overfull as in planning."""
        draw, found = random.Random(18), {}
        for _ in range(2000):
            changed = [bytearray(table) for table in (PAIR, TWO_JOBS)]
            table = draw.choice(changed)
            table[draw.randrange(len(table))] = draw.choice((0, 1, 2, 3, 4, 64, draw.randrange(256)))
            lent = tuple(map(bytes, changed))
            numbers = Parameters(*draw.choice(((2, 0, 0), (1, 0, 0), (2, 1, 1), (2, 0, 100), (3, 0, 0), (2, 0, 2**32 - 1))))
            answer, spare = archive.nearest(*lent, numbers)[0], archive.spare(*lent, 0, 1, numbers)
            planned = archive.plan(*lent, tables.NO_MARKS, numbers)[0]
            window = (planned.start, planned.end, planned.spare) if planned.number == 11 else (0, 0, 0)
            self.assertEqual((answer.number, answer.place), (planned.number, planned.place))
            self.assertEqual((answer.start, answer.end, answer.spare), window)
            if answer.number not in (0, 11):
                self.assertEqual((answer.number, answer.place), (spare.number, spare.place))
            found[answer.number] = found.get(answer.number, 0) + 1
        for number in (0, 4, 9, 11, 35, 36):
            self.assertGreater(found[number], 20)

    def test_values_without_room(self):
        for levels, jobs, said in (
            ([(65536, 1)], [], "frequency 65536 does not fit in 16 bits (0 to 65535)"),
            (T, [(0, 2**32, 1)], "deadline 4294967296 does not fit in 32 bits (0 to 4294967295)"),
            (T, [(0, 4)], "2 columns, but a job has 3: release, deadline, cycles"),
        ):
            with self.assertRaises(ValueError) as caught:
                ramyearly.nearest(levels, jobs)
            self.assertEqual(str(caught.exception), said)
        self.assertRaises(TypeError, ramyearly.nearest, T, JOBS, marks=[1])


class Lists(unittest.TestCase):
    FILL = 0xA5A5A5A5
    ROOM = 20

    def call(self, call, length):
        """The answer's numbers, and a list of which so many numbers are lent."""
        numbers = (ctypes.c_uint32 * self.ROOM)(*[self.FILL] * self.ROOM)
        lent = [*archive.tables(call.levels, call.jobs), *archive.numbers(call.levels, call.parameters)]
        answer = archive.library().ramyearly_nearest(*lent, ctypes.addressof(numbers), length)
        return fields_of(answer), list(numbers)

    def left(self, *written):
        return [*written, *[self.FILL] * (self.ROOM - len(written))]

    def test_lengths(self):
        """A list that is too short is refused with the length wanted and not written to; in a longer one the rest stays."""
        three = [(0, 2, 4), (1, 2, 1), (0, 3, 1)]
        for jobs, written in (([], []), ([(0, 1, 1)], [0, 3]), (JOBS, [1, 0, 0, 6]), (three, [0, 3, 1, 3, 2, 6])):
            wanted = len(written)
            for length in range(self.ROOM + 1):
                answer = (0, 0, 0, 0, 0, wanted), self.left(*written)
                if length < wanted:
                    answer = (14, wanted, 0, 0, 0, 0), self.left()
                self.assertEqual(self.call(SOUND._replace(**jobs_of(*jobs)), length), answer)

    def test_refused(self):
        """A short list is said last, and no list is written to."""
        for number, (fault, place, _) in FAULTS.items():
            window = (2, 3, -1) if number == 11 else (0, 0, 0)
            for length in (0, 3, self.ROOM):
                self.assertEqual(self.call(SOUND._replace(**fault), length), ((number, place, *window, 0), self.left()))

    def test_the_package_asks_for_the_length(self):
        for count in (0, 1, 5, 64):
            answer, numbers = archive.nearest(PAIR, operations.job_table([(0, 64, 1)] * count))
            self.assertEqual((answer.number, answer.length, len(numbers)), (0, 2 * count, max(2 * count, 1)))


if __name__ == "__main__":
    unittest.main()
