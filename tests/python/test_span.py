"""What touches a span of ticks, on plain values: each list, the nearest deadline, each refusal, and the lent lists."""

import ctypes
import itertools
import random
import unittest

import ramyearly
from ramyearly import archive, operations, tables
from ramyearly.calls import Call
from definitions import random_jobs, random_steps, spans_of, touched_by_definition
from faults import jobs_of, plan_of
from support import PAIR, PLAN, PRICES, TWO_JOBS

JOBS = [(0, 4, 6), (2, 3, 4)]
STEPS = [(0, 0, 4), (1, 1, 4), (2, 0, 2)]
SPANS = [(0, 2), (2, 3), (3, 4)]
LIMIT = 1_000_000
MOST = 2**32 - 1


class Answers(unittest.TestCase):
    def test_document_01s_plan(self):
        for start, end, open_jobs, inside_jobs, steps, deadline in (
            (0, 4, [0, 1], [0, 1], STEPS, 3),
            (0, LIMIT, [0, 1], [0, 1], STEPS, 3),
            # From one bound to the next, and one tick to either side.
            (2, 3, [0, 1], [1], STEPS[1:2], 3),
            (1, 3, [0, 1], [1], STEPS[:2], 3),
            (2, 4, [0, 1], [1], STEPS[1:], 3),
            # What ends where the span starts is not in it, and neither is what starts where the span ends.
            (0, 2, [0], [], STEPS[:1], 3),
            (1, 2, [0], [], STEPS[:1], 3),
            (3, 4, [0], [], STEPS[2:], 3),
            # The nearest deadline may be that of a job that is not open, at the start itself, or past the end.
            (4, 5, [], [], [], 4),
            (0, 1, [0], [], STEPS[:1], 3),
            (5, 6, [], [], [], None),
            (LIMIT - 1, LIMIT, [], [], [], None),
        ):
            for spelled in itertools.permutations(STEPS):
                touched = ramyearly.touching(JOBS, (3, spelled), start, end)
                self.assertEqual(touched, (open_jobs, inside_jobs, steps, SPANS, deadline))

    def test_no_jobs(self):
        self.assertEqual(ramyearly.touching([], (0, []), 0, 1), ([], [], [], [], None))
        self.assertEqual(ramyearly.touching([], (0, []), 7, LIMIT), ([], [], [], [], None))

    def test_by_definition(self):
        draw, lengths = random.Random(5), set()
        for _ in range(300):
            jobs = random_jobs(draw)
            steps = random_steps(draw, jobs)
            for _ in range(5):
                start = draw.randrange(45)
                end = start + draw.choice((1, 2, draw.randint(1, 45)))
                touched = ramyearly.touching(jobs, (len(spans_of(jobs)), steps), start, end)
                self.assertEqual(touched, touched_by_definition(jobs, steps, start, end))
                lengths.add(tuple(map(len, touched[:3])))
        # The lists are of many lengths.
        self.assertGreater(len(lengths), 50)

    def test_at_the_limits(self):
        """The last tick that there is."""
        jobs, plan = [(0, LIMIT, 10), (LIMIT - 1, LIMIT, 5)], (2, [(0, 0, 10), (1, 1, 5)])
        spans = [(0, LIMIT - 1), (LIMIT - 1, LIMIT)]
        last = ([0, 1], [1], [(1, 1, 5)], spans, LIMIT)
        self.assertEqual(ramyearly.touching(jobs, plan, LIMIT - 1, LIMIT), last)
        self.assertEqual(ramyearly.touching(jobs, plan, 0, LIMIT - 1), ([0], [], [(0, 0, 10)], spans, LIMIT))
        self.assertEqual(ramyearly.touching(jobs, plan, 0, LIMIT), ([0, 1], [0, 1], [(0, 0, 10), (1, 1, 5)], spans, LIMIT))

    def test_a_plan_that_the_check_refuses(self):
        """No level table is lent, and what the steps add to is no matter: 19 to 24 do not occur."""
        self.assertEqual(ramyearly.touching(JOBS, (3, []), 0, 4), ([0, 1], [0, 1], [], SPANS, 3))
        steps = [(0, 0, 6), (1, 0, 6), (2, 0, 6)]
        self.assertEqual(ramyearly.touching(JOBS, (3, steps), 2, 4), ([0, 1], [1], steps[1:], SPANS, 3))
        full = [(0, 1, 10**9)] * 64
        steps = [(0, number, 10**9) for number in range(64)]
        self.assertEqual(ramyearly.touching(full, (1, steps), 0, 1), ([*range(64)], [*range(64)], steps, [(0, 1)], 1))

    def test_the_longest_lists(self):
        """64 jobs over 127 intervals, with a step for each of the 4,096 pairs of a job and an interval that it is open in."""
        jobs = [(number, 128 - number, 128 - 2 * number) for number in range(64)]
        steps = [(interval, job, 1 + interval + job) for job in range(64) for interval in range(job, 127 - job)]
        steps = [(interval, job, min(cycles, 128 - 2 * job)) for interval, job, cycles in steps]
        self.assertEqual(len(steps), 4096)
        for start, end in ((0, 128), (63, 65), (63, 64), (64, 65), (0, 1), (127, 128), (30, 100)):
            touched = ramyearly.touching(jobs, (127, steps[::-1]), start, end)
            self.assertEqual(touched, touched_by_definition(jobs, steps, start, end))
        self.assertEqual(len(ramyearly.touching(jobs, (127, steps), 0, 128).steps), 4096)

    def test_a_plan_that_was_made(self):
        planned = ramyearly.plan([(2, 10), (4, 20)], JOBS)
        touched = ramyearly.touching(JOBS, (len(planned.spans), planned.steps), 0, 4)
        self.assertEqual((touched.steps, touched.spans), (planned.steps, planned.spans))


SOUND = Call(jobs=TWO_JOBS, plan=PLAN, start=1, end=3)
# For each refusal in the order of the operation what is replaced in the sound call, the place, and the words.
FAULTS = {
    33: ({"start": 3}, 0, "start 3 is not before end 3 (refusal 33)"),
    6: ({"jobs": b"\2"}, 0, "jobs: 1 byte, but the sizes alone take 2 (refusal 6)"),
    7: (jobs_of(*[(0, 1, 1)] * 65), 0, "jobs: 65 jobs, but a table has at most 64 (refusal 7)"),
    8: ({"jobs": TWO_JOBS[:-1]}, 0, "jobs: 25 bytes, but jobs number 2, which takes 26 (refusal 8)"),
    9: (jobs_of((0, 4, 6), (3, 3, 1)), 1, "jobs: release 3 is not before deadline 3 (refusal 9, entry 1)"),
    10: (jobs_of((0, 4, 6), (2, 3, 0)), 1, "jobs: cycles 0 are not in range (1 to 1,000,000,000) (refusal 10, entry 1)"),
    15: ({"plan": PLAN + b"\0"}, 0, "plan: 23 bytes, but steps number 3, which takes 22 (refusal 15)"),
    16: (plan_of(*STEPS, intervals=4), 0, "plan: 4 intervals, but the jobs make 3 (refusal 16)"),
    17: (plan_of(*STEPS, (0, 1, 4)), 3, "plan: job 1 is not open in interval 0 (refusal 17, step 3)"),
    18: (plan_of(*STEPS, (1, 0, 7)), 3, "plan: 7 cycles of job 0 in interval 1, but the job has 6 (refusal 18, step 3)"),
}


def ask(call):
    """The archive's answer to a call, with lists as long as it wants them."""
    return archive.touching(call.jobs, call.marks, call.plan, call.start, call.end)[0]


class Refusals(unittest.TestCase):
    def expect(self, call, number, place, said):
        with self.assertRaises(ramyearly.Refused) as caught:
            operations.touching_tables(call.jobs, call.marks, call.plan, call.start, call.end)
        refusal = caught.exception
        self.assertEqual((refusal.number, refusal.place, str(refusal)), (number, place, said))

    def test_each_in_words(self):
        self.assertEqual(list(FAULTS), [33, *range(6, 11), *range(15, 19)])
        for number, (fault, place, said) in FAULTS.items():
            self.expect(SOUND._replace(**fault), number, place, said)

    def test_spans(self):
        for start, end, said in (
            (0, 0, "start 0 is not before end 0"),
            (2, 1, "start 2 is not before end 1"),
            (MOST, MOST, f"start {MOST} is not before end {MOST}"),
            (MOST, 0, f"start {MOST} is not before end 0"),
            (LIMIT, LIMIT, "start 1000000 is not before end 1000000"),
            (0, LIMIT + 1, "end 1000001 is above 1,000,000"),
            (LIMIT, LIMIT + 1, "end 1000001 is above 1,000,000"),
            (LIMIT + 1, LIMIT + 2, "end 1000002 is above 1,000,000"),
            (0, MOST, f"end {MOST} is above 1,000,000"),
        ):
            # Before anything is read.
            for call in (SOUND, Call(), Call(jobs=b"\0\0", plan=bytes(4))):
                self.expect(call._replace(start=start, end=end), 33, 0, f"{said} (refusal 33)")
            with self.assertRaises(ramyearly.Refused) as caught:
                operations.check_span(start, end)
            self.assertEqual(str(caught.exception), f"{said} (refusal 33)")
        for span in ((0, 1), (0, LIMIT), (LIMIT - 1, LIMIT)):
            operations.check_span(*span)
            self.assertEqual(ask(SOUND._replace(start=span[0], end=span[1])).number, 0)

    def test_their_order(self):
        """The span before the job table, and the job table before the plan."""
        of = {field: [number for number, (fault, _, _) in FAULTS.items() if field in fault] for field in ("start", "jobs", "plan")}
        self.assertEqual(of, {"start": [33], "jobs": [6, 7, 8, 9, 10], "plan": [15, 16, 17, 18]})
        for first, later in itertools.combinations(of, 2):
            for number, other in itertools.product(of[first], of[later]):
                answer = ask(SOUND._replace(**FAULTS[number][0], **FAULTS[other][0]))
                self.assertEqual((answer.number, answer.place), (number, FAULTS[number][1]))

    def test_the_first_fault_of_a_table(self):
        self.expect(SOUND._replace(jobs=b"", plan=b""), 6, 0, "jobs: 0 bytes, but the sizes alone take 2 (refusal 6)")
        for steps, number, place, said in (
            # 18 at an earlier step comes before 17, and 17 before 18 at one step.
            ([(1, 1, 0), (0, 1, 1)], 18, 0, "0 cycles of job 1 in interval 1"),
            ([(0, 1, 0), (1, 1, 0)], 17, 0, "job 1 is not open in interval 0"),
            ([(1, 1, 4), (1, 1, 0)], 17, 1, "job 1 in interval 1 stands in step 0 already"),
            ([(0, 0, 6), (2, 2, 1)], 17, 1, "job 2 is not open in interval 2"),
            ([(0, 0, 6), (3, 0, 1)], 17, 1, "job 0 is not open in interval 3"),
        ):
            call = SOUND._replace(**plan_of(*steps))
            self.expect(call, number, place, f"plan: {said} (refusal {number}, step {place})")
        self.expect(SOUND._replace(**plan_of(intervals=1)), 16, 0, "plan: 1 interval, but the jobs make 3 (refusal 16)")

    def test_damaged_tables(self):
        """Bytes of any content: refused as by the check, as far as 18."""
        draw, refused = random.Random(6), 0
        for _ in range(5000):
            lent = [bytearray(TWO_JOBS), bytearray(PLAN)]
            for _ in range(draw.randint(1, 2)):
                table = draw.choice(lent)
                table[draw.randrange(len(table))] = draw.choice((0, 1, 2, 3, 4, 64, draw.randrange(256)))
            call = SOUND._replace(jobs=bytes(lent[0]), plan=bytes(lent[1]))
            checked, answer = archive.check(PAIR, call.jobs, call.marks, call.plan, PRICES), ask(call)
            of_steps = (checked.number, checked.place) if checked.number <= 18 else (0, 0)
            self.assertEqual((answer.number, answer.place), of_steps)
            refused += answer.number != 0
        self.assertTrue(1000 < refused < 5000)

    def test_values_without_room(self):
        for jobs, plan, span, said in (
            ([], (0, []), (-1, 1), "start -1 does not fit in 32 bits (0 to 4294967295)"),
            ([], (0, []), (0, 2**32), "end 4294967296 does not fit in 32 bits (0 to 4294967295)"),
            ([], (65536, []), (0, 1), "intervals 65536 does not fit in 16 bits (0 to 65535)"),
            ([], (1, [(0, 64, 1)]), (0, 1), "job 64 has no place in a cell (0 to 63)"),
            ([(0, 2**32, 1)], (1, []), (0, 1), "deadline 4294967296 does not fit in 32 bits (0 to 4294967295)"),
        ):
            with self.assertRaises(ValueError) as caught:
                ramyearly.touching(jobs, plan, *span)
            self.assertEqual(str(caught.exception), said)


class Lists(unittest.TestCase):
    FILL = 0xA5A5A5A5
    # Between 1 and 3 three jobs are open and two are inside, and the intervals of four steps share a tick with it.
    FULL = SOUND._replace(**jobs_of(*JOBS, (2, 3, 9)), **plan_of((1, 2, 8), (2, 0, 2), (1, 0, 1), (0, 0, 3), (1, 1, 4)))
    MEMBERS = ([0, 1, 2], [1, 2], [0, 64, 65, 66])

    def call(self, call, *lengths):
        """The answer's numbers, and three lists of 100 numbers of which so many are lent."""
        lists = [(ctypes.c_uint32 * 100)(*[self.FILL] * 100) for _ in lengths]
        lent = [word for numbers, length in zip(lists, lengths) for word in (ctypes.addressof(numbers), length)]
        tables_lent = [*archive.tables(call.jobs, call.marks), 0, 0, *archive.tables(call.plan)]
        answer = archive.library().ramyearly_touching(*tables_lent, call.start, call.end, *lent)
        return tuple(getattr(answer, name) for name, _ in answer._fields_), [list(numbers) for numbers in lists]

    def untouched(self, written=((), (), ())):
        return [[*members, *[self.FILL] * (100 - len(members))] for members in written]

    def test_lengths(self):
        """The first list that is too short is refused, with the length wanted, and then none is written to. In longer ones
        nothing is written behind the members."""
        wanted = tuple(map(len, self.MEMBERS))
        self.assertEqual(wanted, (3, 2, 4))
        for lengths in itertools.product((0, 1, 2, 3, 4, 5, 100), repeat=3):
            short = [want for want, length in zip(wanted, lengths) if length < want]
            fields = (14, short[0], 0, 0, 0, 0) if short else (0, 0, *wanted, 3)
            left = self.untouched() if short else self.untouched(self.MEMBERS)
            self.assertEqual(self.call(self.FULL, *lengths), (fields, left))

    def test_nothing_to_list(self):
        call = self.FULL._replace(start=4, end=5)
        self.assertEqual(self.call(call, 0, 0, 0), ((0, 0, 0, 0, 0, 4), self.untouched()))
        self.assertEqual(self.call(call._replace(start=5, end=6), 0, 0, 0), ((0, 0, 0, 0, 0, 0), self.untouched()))

    def test_refused(self):
        """A short list is said last, and no list is written to."""
        for number, (fault, place, _) in FAULTS.items():
            for length in (0, 100):
                refused = (number, place, 0, 0, 0, 0)
                self.assertEqual(self.call(SOUND._replace(**fault), *[length] * 3), (refused, self.untouched()))

    def test_the_package_asks_for_the_lengths(self):
        """Whichever of the lists is the longest."""
        for jobs, plan, span in (
            (self.FULL.jobs, self.FULL.plan, (2, 3)),
            (self.FULL.jobs, self.FULL.plan, (1, 3)),
            (self.FULL.jobs, self.FULL.plan, (0, 1)),
            (self.FULL.jobs, plan_of()["plan"], (2, 3)),
            (TWO_JOBS, plan_of((1, 0, 1), (1, 1, 1))["plan"], (2, 3)),
            (TWO_JOBS, plan_of((1, 1, 1), (0, 0, 1), (1, 0, 1), (2, 0, 1))["plan"], (0, 4)),
        ):
            answer, *lists = archive.touching(jobs, tables.NO_MARKS, plan, *span)
            steps = tables.split_cells(tables.from_bytes(plan, tables.PLAN, "")[1])
            entries = tables.from_bytes(jobs, tables.JOBS, "")[1]
            open_jobs, inside_jobs, touched, _, deadline = touched_by_definition(entries, steps, *span)
            cells = [cell for cell, _ in tables.join_cells(touched)]
            self.assertEqual((answer.number, answer.place, answer.deadline), (0, 0, deadline))
            members = [numbers[:length] for numbers, length in zip(lists, (answer.open, answer.inside, answer.steps))]
            self.assertEqual(members, [open_jobs, inside_jobs, cells])


if __name__ == "__main__":
    unittest.main()
