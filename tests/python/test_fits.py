"""Whether a plan fits, on plain values: the figure, each refusal and their order, and the check beside it."""

import itertools
import random
import unittest

import ramyearly
from ramyearly import archive, operations, tables
from ramyearly.calls import Call
from definitions import fits_by_definition, plan_by_hand, random_jobs, random_levels, spans_of
from faults import PLAN_FAULTS, STEPS, TABLE_FAULTS, jobs_of, plan_of
from support import PAIR, PLAN, PRICES, TWO_JOBS

T = [(2, 10), (4, 20)]
JOBS = [(0, 4, 6), (2, 3, 4)]
MOST = 2**32 - 1


def number_place_energy(answer):
    return answer.number, answer.place, answer.energy


class Answers(unittest.TestCase):
    def test_more_than_the_least_energy(self):
        """A job of 4 cycles from 0 to 2 with a mark at 1: all of them in the first interval cost 1,600, where 400 would do."""
        dearer = {1600: [(0, 0, 4)], 1000: [(0, 0, 3), (1, 0, 1)]}
        for energy, steps in {**dearer, 400: [(0, 0, 2), (1, 0, 2)]}.items():
            self.assertEqual(ramyearly.fits(T, [(0, 2, 4)], (2, steps), marks=[1]), energy)
        planned = ramyearly.plan(T, [(0, 2, 4)], marks=[1])
        self.assertEqual(planned.energy, 400)
        # Only the least of these has prices with which the check accepts it.
        for steps in dearer.values():
            for prices in itertools.product((1, 2), repeat=2):
                with self.assertRaises(ramyearly.Refused) as caught:
                    ramyearly.check(T, [(0, 2, 4)], steps, list(zip((1, 2), prices)), marks=[1])
                self.assertIn(caught.exception.number, (23, 24))
        self.assertEqual(ramyearly.check(T, [(0, 2, 4)], planned.steps, planned.prices, marks=[1]), 400)

    def test_document_01s_plan(self):
        for steps in itertools.permutations(STEPS):
            self.assertEqual(ramyearly.fits(T, JOBS, (3, steps)), 2200)
        self.assertEqual(operations.fits_tables(PAIR, TWO_JOBS, tables.NO_MARKS, PLAN), 2200)
        # All of job 0 in its first interval, so that the last tick idles, which costs the draw.
        early = 3, [(0, 0, 6), (1, 1, 4)]
        self.assertEqual(ramyearly.fits(T, JOBS, early), 400 + 1400 + 1600)
        self.assertEqual(ramyearly.fits([(0, 0), *T], JOBS, early), 3400)
        self.assertEqual(ramyearly.fits([(0, 1), (2, 100), (4, 200)], JOBS, early), 340_000 + 1_000)

    def test_no_jobs(self):
        for marks in ([], [1, 2, 3], [MOST]):
            self.assertEqual(ramyearly.fits(T, [], (0, []), marks=marks), 0)

    def test_by_definition(self):
        """Plans as people may make them, sound ones and others, with marks and idle draws: the refusal, or the figure."""
        draw, found = random.Random(8), {}
        for _ in range(3000):
            jobs, marks = random_jobs(draw), sorted(draw.sample(range(42), draw.randrange(4)))
            levels = random_levels(draw, draw.randint(1, 7))[draw.randrange(2) :]
            # Low frequencies too, so that intervals get more than they may have.
            if draw.random() < 0.3:
                levels = [(0, 0), (draw.randint(1, 9), 10), (draw.randint(10, 60), 20)][draw.randrange(2) :]
            plan = self.damaged(draw, len(spans_of(jobs, marks)), plan_by_hand(draw, jobs, marks))
            expected = fits_by_definition(levels, jobs, plan, marks)
            lent = operations.level_table(levels), operations.job_table(jobs), operations.mark_table(marks)
            answer = archive.fits(*lent, operations.plan_table(*plan))
            self.assertEqual(number_place_energy(answer), expected)
            found[answer.number] = found.get(answer.number, 0) + 1
            if not answer.number:
                self.assertEqual(ramyearly.fits(levels, jobs, plan, marks=marks), answer.energy)
                # Not less than the least exact energy. A figure is less than the number of levels below the exact energy.
                self.assertGreaterEqual(answer.energy + len(levels), ramyearly.plan(levels, jobs, marks=marks).energy)
        self.assertEqual(sorted(found), [0, 16, 17, 18, 19, 20])
        self.assertGreater(found[0], 1000)
        self.assertGreater(min(found.values()), 50)

    def damaged(self, draw, intervals, steps):
        """The plan as it is, or with one thing that may be wrong."""
        what = draw.choice(("nothing", "nothing", "nothing", "intervals", "cycles", "cell", "one less", "one twice"))
        if what == "intervals":
            return draw.choice((0, intervals + 1, max(intervals - 1, 0), 65535)), steps
        if what != "nothing" and steps:
            place = draw.randrange(len(steps))
            interval, job, cycles = steps[place]
            if what == "cycles":
                steps[place] = interval, job, draw.choice((0, cycles + 1, cycles - 1, 10**9, MOST))
            elif what == "cell":
                steps[place] = draw.choice((interval + 1, draw.randrange(50), 1023)), draw.choice((job, draw.randrange(64))), cycles
            elif what == "one less":
                del steps[place]
            else:
                steps.insert(draw.randrange(len(steps) + 1), (interval, job, 1))
        return intervals, steps

    def test_the_largest_plan(self):
        """64 jobs over 127 intervals, with a step for each of the 4,096 pairs of a job and an interval that it is open in."""
        jobs = [(number, 128 - number, 1000 * (127 - 2 * number)) for number in range(64)]
        steps = [(interval, job, 1000) for job in range(64) for interval in range(job, 127 - job)]
        self.assertEqual(len(steps), 4096)
        levels = [(1, 1)]
        spans = spans_of(jobs)
        self.assertEqual(fits_by_definition(levels, jobs, (127, steps)), (20, 0, 0))
        with self.assertRaises(ramyearly.Refused) as caught:
            ramyearly.fits(levels, jobs, (127, steps[::-1]))
        self.assertEqual((caught.exception.number, caught.exception.place), (20, 0))
        # As long as the intervals are 100 times longer, 640 cycles per tick are enough.
        longer = [(100 * release, 100 * deadline, cycles) for release, deadline, cycles in jobs]
        self.assertEqual(len(spans_of(longer)), len(spans))
        energy = ramyearly.fits([(320, 10), (640, 20)], longer, (127, steps[::-1]))
        self.assertEqual((0, 0, energy), fits_by_definition([(320, 10), (640, 20)], longer, (127, steps)))

    def test_at_the_limits(self):
        """The most cycles of 64 jobs, the latest deadline, and the largest powers and figure."""
        jobs = [(0, 10**6, 10**9 // 64)] * 64
        steps = [(0, number, 10**9 // 64) for number in range(64)]
        self.assertEqual(ramyearly.fits([(1000, 500)], jobs, (1, steps)), 250 * 10**12)
        over = [(0, 10**6, 10**9), *jobs[1:]]
        with self.assertRaises(ramyearly.Refused) as caught:
            ramyearly.fits([(1000, 500)], over, (1, [(0, 0, 10**9), *steps[1:]]))
        load = 10**9 + 63 * (10**9 // 64)
        words = f"interval 0, from 0 to 1000000, has {load} cycles, but the top frequency gives 1000000000 in 1000000 ticks"
        self.assertEqual(str(caught.exception), f"plan: {words} (refusal 20, interval 0)")


SOUND = Call(levels=PAIR, jobs=TWO_JOBS, plan=PLAN)
BAD_MARKS = {"marks": operations.mark_table([3, 3])}
# For each refusal in the order of the operation what is replaced in the sound call.
FAULTS = {
    **TABLE_FAULTS,
    34: BAD_MARKS,
    **PLAN_FAULTS,
}


class Refusals(unittest.TestCase):
    def refusal_of(self, call):
        with self.assertRaises(ramyearly.Refused) as caught:
            operations.fits_tables(call.levels, call.jobs, call.marks, call.plan)
        return caught.exception

    def test_those_of_the_check(self):
        """The same numbers, places and words, whatever the prices would be."""
        self.assertEqual(sorted(FAULTS), [*range(1, 11), *range(15, 21), 31, 32, 34])
        for number, fault in FAULTS.items():
            call = SOUND._replace(**fault)
            refusal = self.refusal_of(call)
            self.assertEqual(refusal.number, number)
            for prices in (PRICES, b""):
                with self.assertRaises(ramyearly.Refused) as checked:
                    operations.check_tables(*call._replace(prices=prices)[:5])
                self.assertEqual(vars(refusal), vars(checked.exception))

    def test_in_words(self):
        over = "but the top frequency gives 4 in 1 tick"
        for number, place, said in (
            (4, 1, "levels: frequency 300 is not above 300 before it (refusal 4, entry 1)"),
            (31, 0, "levels: the idle entry stands alone: no level follows it (refusal 31)"),
            (10, 1, "jobs: cycles 0 are not in range (1 to 1,000,000,000) (refusal 10, entry 1)"),
            (34, 0, "marks: mark 3 is not above 3 before it (refusal 34)"),
            (15, 0, "plan: 21 bytes, but steps number 3, which takes 22 (refusal 15)"),
            (16, 0, "plan: 4 intervals, but the jobs make 3 (refusal 16)"),
            (17, 3, "plan: job 1 is not open in interval 0 (refusal 17, step 3)"),
            (18, 3, "plan: 0 cycles of job 0 in interval 1 (refusal 18, step 3)"),
            (19, 0, "jobs: the plan gives job 0 4 cycles, but it has 6 (refusal 19, job 0)"),
            (20, 1, f"plan: interval 1, from 2 to 3, has 5 cycles, {over} (refusal 20, interval 1)"),
        ):
            refusal = self.refusal_of(SOUND._replace(**FAULTS[number]))
            self.assertEqual((refusal.number, refusal.place, str(refusal)), (number, place, said))

    def test_their_order(self):
        """Levels, jobs, marks and then the plan."""
        fields = {field: [number for number, fault in FAULTS.items() if field in fault] for field in SOUND._fields[:4]}
        self.assertEqual(fields["plan"], [*range(15, 21)])
        for first, later in itertools.combinations(fields, 2):
            for number, other in itertools.product(fields[first], fields[later]):
                call = SOUND._replace(**FAULTS[number], **FAULTS[other])
                self.assertEqual(number_place_energy(archive.fits(*call[:4])), number_place_energy(self.answer_of(number)))

    def answer_of(self, number):
        return archive.fits(*SOUND._replace(**FAULTS[number])[:4])

    def test_the_first_fault_of_a_plan(self):
        for steps, number, place in (
            # 18 at an earlier step comes before 17, and 17 before 18 at one step.
            ([(1, 1, 0), (0, 1, 1)], 18, 0),
            ([(0, 1, 0), (1, 1, 0)], 17, 0),
            ([(1, 1, 4), (1, 1, 0)], 17, 1),
            # All steps before sums, the first job of those, and sums before loads.
            ([(0, 0, 1), (2, 1, 1)], 17, 1),
            ([], 19, 0),
            ([(0, 0, 6)], 19, 1),
            ([(1, 0, 6), (1, 1, 3)], 19, 1),
            ([(1, 0, 6), (1, 1, 4)], 20, 1),
        ):
            refusal = self.refusal_of(SOUND._replace(**plan_of(*steps)))
            self.assertEqual((refusal.number, refusal.place), (number, place))
        # The first interval of those that have too much.
        call = SOUND._replace(**jobs_of((0, 1, 5), (1, 2, 5)), **plan_of((1, 1, 5), (0, 0, 5), intervals=2))
        self.assertEqual((self.refusal_of(call).number, self.refusal_of(call).place), (20, 0))

    def test_other_marks(self):
        """A plan goes with the marks that it was made with, as far as these cut."""
        for marks, said in (([1], "jobs and the marks make 4"), ([1, 3], "jobs and the marks make 4")):
            with self.assertRaises(ramyearly.Refused) as caught:
                ramyearly.fits(T, JOBS, (3, STEPS), marks=marks)
            self.assertEqual(str(caught.exception), f"plan: 3 intervals, but the {said} (refusal 16)")
        self.assertEqual(ramyearly.fits(T, JOBS, (3, STEPS), marks=[0, 2, 3, 4, MOST]), 2200)

    def test_damaged_tables(self):
        """Bytes of any content: refused as by the check, as far as 20. What the check accepts fits, with the same figure."""
        draw, found = random.Random(9), {}
        for _ in range(5000):
            lent = [bytearray(table) for table in (PAIR, TWO_JOBS, operations.mark_table([2]), PLAN, PRICES)]
            for _ in range(draw.randint(1, 2)):
                table = draw.choice(lent)
                table[draw.randrange(len(table))] = draw.choice((0, 1, 2, 3, 4, 64, draw.randrange(256)))
            lent = [bytes(table) for table in lent]
            checked, answer = archive.check(*lent), archive.fits(*lent[:4])
            if 21 <= checked.number <= 24:
                self.assertEqual((answer.number, answer.place), (0, 0))
            else:
                self.assertEqual(number_place_energy(answer), number_place_energy(checked))
            found[checked.number] = found.get(checked.number, 0) + 1
        # Enough of what fits and is not accepted.
        self.assertGreater(sum(found.get(number, 0) for number in range(21, 25)), 500)
        self.assertGreater(found[0], 50)

    def test_prices_that_do_not_fit(self):
        """What the check says of prices, of a plan that fits."""
        for steps, prices in ((STEPS, [(2, 1), (3, 1), (4, 1)]), (STEPS, []), ([(0, 0, 6), (1, 1, 4)], [(2, 2), (3, 2), (4, 1)])):
            self.assertGreater(ramyearly.fits(T, JOBS, (3, steps)), 0)
            with self.assertRaises(ramyearly.Refused) as caught:
                operations.check_tables(*SOUND._replace(**plan_of(*steps), prices=tables.to_bytes(prices, tables.PRICES))[:5])
            self.assertIn(caught.exception.number, range(21, 25))

    def test_values_without_room(self):
        for plan, said in (
            ((65536, []), "intervals 65536 does not fit in 16 bits (0 to 65535)"),
            ((1, [(0, 64, 1)]), "job 64 has no place in a cell (0 to 63)"),
            ((1, [(1024, 0, 1)]), "cell 65536 does not fit in 16 bits (0 to 65535)"),
            ((1, [(0, 0, 2**32)]), "cycles 4294967296 does not fit in 32 bits (0 to 4294967295)"),
        ):
            with self.assertRaises(ValueError) as caught:
                ramyearly.fits(T, [], plan)
            self.assertEqual(str(caught.exception), said)


class Intervals(unittest.TestCase):
    """How many intervals a site has, which a plan in text does not say."""

    def test_spans(self):
        draw = random.Random(10)
        for _ in range(200):
            jobs, marks = random_jobs(draw), sorted(draw.sample(range(42), draw.randrange(9)))
            lent = PAIR, operations.job_table(jobs), operations.mark_table(marks)
            self.assertEqual(operations.spans_of_tables(*lent), spans_of(jobs, marks))

    def test_refused_tables(self):
        for number in (*TABLE_FAULTS, 34):
            call = SOUND._replace(**FAULTS[number])
            with self.assertRaises(ramyearly.Refused) as caught:
                operations.spans_of_tables(call.levels, call.jobs, call.marks)
            with self.assertRaises(ramyearly.Refused) as refused:
                operations.fits_tables(call.levels, call.jobs, call.marks, call.plan)
            self.assertEqual(vars(caught.exception), vars(refused.exception))


if __name__ == "__main__":
    unittest.main()
