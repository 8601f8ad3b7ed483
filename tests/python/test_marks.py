"""Handover marks on plain values: the intervals that they cut, the least energy, each operation with them, and refusal 34."""

import ctypes
import itertools
import random
import unittest

import ramyearly
from ramyearly import archive, operations, tables
from ramyearly.calls import Call
from definitions import energies_by_definition, random_jobs, random_levels, random_steps, spans_of, touched_by_definition
from faults import TABLE_FAULTS, jobs_of
from support import PAIR, PLAN, PRICES, TWO_JOBS

T = [(2, 10), (4, 20)]
JOBS = [(0, 4, 6), (2, 3, 4)]
# Document 01's plan with a mark at 1. It is the only least one: the first level is full wherever job 0 runs.
STEPS = [(0, 0, 2), (1, 0, 2), (2, 1, 4), (3, 0, 2)]
SPANS = [(0, 1), (1, 2), (2, 3), (3, 4)]
PRICE_LIST = [(1, 1), (2, 1), (3, 2), (4, 1)]
MOST = 2**32 - 1


def random_marks(draw):
    """At most 8 ticks in and around the time of random jobs, or far from it."""
    ticks = [*range(42), 10**6, 10**6 + 1, MOST]
    return sorted(draw.sample(ticks, draw.randrange(9)))


class Answers(unittest.TestCase):
    def test_a_cut(self):
        planned = ramyearly.plan(T, JOBS, marks=[1])
        self.assertEqual((planned.energy, planned.steps, planned.spans, planned.prices), (2200, STEPS, SPANS, PRICE_LIST))
        self.assertEqual(planned.shares, [[2, 0], [2, 0], [0, 4], [2, 0]])
        self.assertEqual(ramyearly.check(T, JOBS, STEPS, PRICE_LIST, marks=[1]), 2200)
        for steps in itertools.permutations(STEPS):
            ordered = ramyearly.order(T, JOBS, steps, PRICE_LIST, marks=[1])
            self.assertEqual(ordered, (STEPS, planned.plan_bytes))
        touched = ramyearly.touching(JOBS, (4, STEPS), 1, 2, marks=[1])
        self.assertEqual(touched, ([0], [], [(1, 0, 2)], SPANS, 3))

    def test_without_effect(self):
        """At or before the earliest release, at or after the latest deadline, or on a bound that is there already."""
        planned = ramyearly.plan(T, JOBS)
        for marks in ([], [0], [2], [3], [4], [5], [2, 3], [0, 4], [10**6, 10**6 + 1], [MOST], [0, 2, 3, 4, 5, 6, 7, MOST]):
            self.assertEqual(ramyearly.plan(T, JOBS, marks=marks), planned)
            self.assertEqual(ramyearly.check(T, JOBS, planned.steps, planned.prices, marks=marks), 2200)
            self.assertEqual(ramyearly.order(T, JOBS, planned.steps[::-1], planned.prices, marks=marks).plan_bytes, PLAN)
            touched = ramyearly.touching(JOBS, (3, planned.steps), 0, 4, marks=marks)
            self.assertEqual(touched, ramyearly.touching(JOBS, (3, planned.steps), 0, 4))
        # The others of the same marks cut.
        self.assertEqual(ramyearly.plan(T, JOBS, marks=[0, 1, 2, 3, 4, MOST]).spans, SPANS)
        later = [(10, 14, 6), (12, 13, 4)]
        self.assertEqual(ramyearly.plan(T, later, marks=[0, 9, 10]), ramyearly.plan(T, later))

    def test_no_jobs(self):
        """Nothing is cut, whatever the marks."""
        for marks in ([], [0], [1, 2, 3], [*range(0, 80, 10)], [MOST]):
            self.assertEqual(ramyearly.plan(T, [], marks=marks), ramyearly.plan(T, []))
            self.assertEqual(ramyearly.check(T, [], [], [], marks=marks), 0)
            self.assertEqual(ramyearly.order(T, [], [], [], marks=marks), ([], bytes(4)))
            self.assertEqual(ramyearly.touching([], (0, []), 0, 9, marks=marks), ([], [], [], [], None))

    def test_a_stretch_without_jobs(self):
        planned = ramyearly.plan(T, [(0, 1, 2), (5, 6, 4)], marks=[2, 4])
        self.assertEqual(planned.spans, [(0, 1), (1, 2), (2, 4), (4, 5), (5, 6)])
        self.assertEqual((planned.steps, planned.energy), ([(0, 0, 2), (4, 1, 4)], 1800))

    def test_by_definition(self):
        """The bounds, the figure, and the least exact energy, which is that without marks; with an idle draw or without."""
        draw, cut = random.Random(7), 0
        for _ in range(300):
            jobs, marks = random_jobs(draw), random_marks(draw)
            levels = random_levels(draw, draw.randint(1, 7))[draw.randrange(2) :]
            try:
                without = ramyearly.plan(levels, jobs)
            except ramyearly.Overfull as refusal:
                with self.assertRaises(ramyearly.Overfull) as caught:
                    ramyearly.plan(levels, jobs, marks=marks)
                self.assertEqual(vars(caught.exception), vars(refusal))
                continue
            planned = ramyearly.plan(levels, jobs, marks=marks)
            self.assertEqual(planned.spans, spans_of(jobs, marks))
            self.assertEqual([sum(column) for column in zip(*planned.shares)], [cycles for _, _, cycles in jobs])
            figure, exact = energies_by_definition(levels, planned)
            self.assertEqual((planned.energy, exact), (figure, energies_by_definition(levels, without)[1]))
            self.assertEqual(ramyearly.check(levels, jobs, planned.steps, planned.prices, marks=marks), figure)
            self.assert_ordered(draw, levels, jobs, marks, planned)
            cut += planned.spans != without.spans
            if planned.spans != without.spans:
                self.assertEqual(self.refusal_of(levels, jobs, planned).number, 16)
        self.assertGreater(cut, 100)

    def assert_ordered(self, draw, levels, jobs, marks, planned):
        steps = draw.sample(planned.steps, len(planned.steps))
        ordered = ramyearly.order(levels, jobs, steps, planned.prices, marks=marks)
        self.assertEqual(ordered, (sorted(steps), planned.plan_bytes))

    def refusal_of(self, levels, jobs, planned):
        """What the check says of a plan with marks where it is lent none."""
        with self.assertRaises(ramyearly.Refused) as caught:
            ramyearly.check(levels, jobs, planned.steps, planned.prices)
        return caught.exception

    def test_spans_by_definition(self):
        draw, lengths = random.Random(8), set()
        for _ in range(300):
            jobs, marks = random_jobs(draw), random_marks(draw)
            steps = random_steps(draw, jobs, marks)
            for _ in range(5):
                start = draw.randrange(45)
                end = start + draw.choice((1, 2, draw.randint(1, 45)))
                touched = ramyearly.touching(jobs, (len(spans_of(jobs, marks)), steps), start, end, marks=marks)
                self.assertEqual(touched, touched_by_definition(jobs, steps, start, end, marks))
                lengths.add(tuple(map(len, touched[:3])))
        self.assertGreater(len(lengths), 50)

    def test_rounds(self):
        """Marks of a site with tasks are ticks of one round."""
        rounds = ramyearly.rounds([(0, 20, 8, 20), (5, 30, 10, 30), (0, 60, 60, 90)])
        planned, without = ramyearly.plan(T, rounds.jobs, marks=[30, 50, 60]), ramyearly.plan(T, rounds.jobs)
        self.assertEqual(planned.energy, without.energy)
        self.assertEqual(planned.spans, spans_of(rounds.jobs, [30, 50]))

    def test_the_largest_site(self):
        """64 jobs over 135 intervals, and a step for each of the 4,608 pairs of a job and an interval that it is open in."""
        jobs = [(number, 1000 - number, 10 * (135 - 2 * number)) for number in range(64)]
        marks = [*range(100, 900, 100)]
        planned = ramyearly.plan([(n, 10 * n) for n in range(40, 48)], jobs, marks=marks)
        self.assertEqual((len(planned.spans), planned.spans), (135, spans_of(jobs, marks)))
        self.assertEqual([sum(column) for column in zip(*planned.shares)], [cycles for _, _, cycles in jobs])
        steps = [(interval, job, 10) for job in range(64) for interval in range(job, 135 - job)]
        ordered = ramyearly.order([(1000, 1)], jobs, steps, [(end, 1) for _, end in planned.spans], marks=marks)
        self.assertEqual((len(steps), ordered.steps, len(ordered.plan_bytes)), (4608, sorted(steps), 27652))
        touched = ramyearly.touching(jobs, (135, steps), 0, 1000, marks=marks)
        self.assertEqual((touched.steps, touched.spans), (sorted(steps), planned.spans))


SOUND = Call(PAIR, TWO_JOBS, tables.NO_MARKS, PLAN, PRICES, start=0, end=4)
# Mark tables that are malformed, with the words for each and the entry that they speak of.
MALFORMED = (
    (b"", "0 bytes, but the sizes alone take 2", None),
    (b"\0", "1 byte, but the sizes alone take 2", None),
    (b"\0\0\0", "3 bytes, but marks number 0, which takes 2", None),
    (bytes.fromhex("0200 01000000 020000"), "9 bytes, but marks number 2, which takes 10", None),
    (bytes.fromhex("0200 01000000 02000000 00"), "11 bytes, but marks number 2, which takes 10", None),
    (operations.mark_table(range(9)), "9 marks, but a table has at most 8", None),
    (b"\xff\xff", "65535 marks, but a table has at most 8", None),
    (operations.mark_table([50, 40]), "mark 40 is not above 50 before it", 1),
    (operations.mark_table([1, 2, 2, 1]), "mark 2 is not above 2 before it", 2),
    (operations.mark_table([*range(6, 13), 12]), "mark 12 is not above 12 before it", 7),
    (operations.mark_table([MOST, 0]), f"mark 0 is not above {MOST} before it", 1),
)
OPERATIONS = {
    "check": lambda call: archive.check(*call[:5]),
    "plan": lambda call: archive.plan(*call[:3])[0],
    "order": lambda call: archive.order(*call[:5])[0],
    "touching": lambda call: archive.touching(*call[1:4], call.start, call.end)[0],
}


class Refusals(unittest.TestCase):
    # What is refused before the marks are looked at, and by which operations it is looked at at all.
    BEFORE = {
        **dict.fromkeys((1, 2, 3, 4, 5, 31, 32), ("check", "plan", "order")),
        **dict.fromkeys((6, 7, 8, 9, 10), ("check", "plan", "order", "touching")),
        33: ("touching",),
    }
    FAULTS = {**TABLE_FAULTS, 33: {"start": 4}}

    def test_in_words(self):
        for data, said, entry in MALFORMED:
            call = SOUND._replace(marks=data)
            for function, lent in (
                (operations.plan_tables, call[:3]),
                (operations.check_tables, call[:5]),
                (operations.order_tables, call[:5]),
                (operations.touching_tables, (*call[1:4], 0, 4)),
            ):
                with self.assertRaises(ramyearly.Refused) as caught:
                    function(*lent)
                refusal = caught.exception
                self.assertEqual((refusal.number, refusal.place, refusal.entry), (34, 0, entry))
                self.assertEqual(str(refusal), f"marks: {said} (refusal 34)")

    def test_after_the_tables_and_before_the_rest(self):
        """After levels, jobs and a span; before an overfull window, a plan and a short buffer."""
        for data, _, _ in MALFORMED:
            for number, fault in self.FAULTS.items():
                for name, ask in OPERATIONS.items():
                    answer = ask(SOUND._replace(marks=data, **fault))
                    self.assertEqual(answer.number, number if name in self.BEFORE[number] else 34)
            for fault in (jobs_of((0, 1, 5)), {"plan": b""}, {"plan": PLAN[:-1]}, {"prices": b""}, {"jobs": b"\0\0"}):
                for ask in OPERATIONS.values():
                    answer = ask(SOUND._replace(marks=data, **fault))
                    self.assertEqual((answer.number, answer.place), (34, 0))

    def test_damaged_tables(self):
        """Bytes of any content: 34 exactly where document 02 says so."""
        draw, refused = random.Random(9), 0
        for _ in range(3000):
            marks = bytearray(operations.mark_table(sorted(draw.sample(range(6), draw.randrange(6)))))
            if draw.random() < 0.8:
                marks[draw.randrange(len(marks))] = draw.choice((0, 1, 2, 8, 9, draw.randrange(256)))
            if draw.random() < 0.1:
                marks = marks[: draw.randrange(len(marks))] + draw.randbytes(draw.randrange(3))
            malformed = is_malformed(bytes(marks))
            for ask in OPERATIONS.values():
                self.assertEqual(ask(SOUND._replace(marks=bytes(marks))).number == 34, malformed)
            refused += malformed
        self.assertTrue(500 < refused < 2500)

    def test_any_ticks(self):
        """Eight marks are not too many, and a tick may be any number of 32 bits."""
        for marks in ([*range(8)], [MOST - 7 + number for number in range(8)], [0, MOST], [MOST], [0]):
            self.assertEqual(ramyearly.plan(T, JOBS, marks=marks).energy, 2200)

    def test_values_without_room(self):
        for marks, said in (
            ([2**32], "tick 4294967296 does not fit in 32 bits (0 to 4294967295)"),
            ([-1], "tick -1 does not fit in 32 bits (0 to 4294967295)"),
            (range(65536), "marks 65536 does not fit in 16 bits (0 to 65535)"),
        ):
            for function, lent in (
                (ramyearly.plan, (T, JOBS)),
                (ramyearly.check, (T, JOBS, STEPS, PRICE_LIST)),
                (ramyearly.order, (T, JOBS, STEPS, PRICE_LIST)),
                (ramyearly.touching, (JOBS, (4, STEPS), 0, 4)),
            ):
                with self.assertRaises(ValueError) as caught:
                    function(*lent, marks=marks)
                self.assertEqual(str(caught.exception), said)
        self.assertRaises(TypeError, ramyearly.plan, T, JOBS, marks=["1"])
        self.assertRaises(TypeError, ramyearly.plan, T, JOBS, [1])

    def test_words_of_a_plan_with_other_marks(self):
        """What the words of other refusals look up follows the marks."""
        for marks, steps, prices, said in (
            ([], STEPS, PRICE_LIST, "plan: 4 intervals, but the jobs make 3 (refusal 16)"),
            ([1, 9], STEPS[1:], PRICE_LIST[1:], "plan: 3 intervals, but the jobs and the marks make 4 (refusal 16)"),
            ([1], [(0, 1, 4), *STEPS], PRICE_LIST, "plan: job 1 is not open in interval 0 (refusal 17, step 0)"),
            ([1], STEPS, [(2, 1), *PRICE_LIST[1:]], "prices: interval 0 ends at 1, not at 2 (refusal 22, interval 0)"),
            (
                [1],
                STEPS,
                [*PRICE_LIST[:2], (3, 1), (4, 1)],
                "prices: price 1 does not fit the load 4 of interval 2, which is in band 2 (refusal 23, interval 2)",
            ),
        ):
            with self.assertRaises(ramyearly.Refused) as caught:
                ramyearly.check(T, JOBS, steps, prices, marks=marks)
            self.assertEqual(str(caught.exception), said)


def is_malformed(data):
    if len(data) < 2 or len(data) != 2 + 4 * int.from_bytes(data[:2], "little") or data[0] > 8:
        return True
    ticks = [int.from_bytes(data[at : at + 4], "little") for at in range(2, len(data), 4)]
    return any(later <= tick for tick, later in zip(ticks, ticks[1:]))


class Buffers(unittest.TestCase):
    """With a mark at 1 there are 4 intervals, and 5 pairs of a job and an interval where it is open."""

    WANTED = (4 + 6 * 5, 2 + 5 * 4, 2 * 4)

    def call(self, marks, *lengths):
        """The answer's number and place, and how much of three buffers of which so many elements are lent was written to."""
        buffers = [(kind * 101)(*[0xA5] * 101) for kind in (ctypes.c_uint8, ctypes.c_uint8, ctypes.c_uint32)]
        lent = [word for buffer, length in zip(buffers, lengths) for word in (ctypes.addressof(buffer), length)]
        answer = archive.library().ramyearly_plan(*archive.site(PAIR, TWO_JOBS, operations.mark_table(marks)), *lent)
        return (answer.number, answer.place), [written(list(buffer)) for buffer in buffers]

    def test_lengths(self):
        """Too short by one nothing is written, and in longer ones nothing behind what is answered."""
        for more in itertools.product((-1, 0, 1, 40), repeat=3):
            lengths = [want + rest for want, rest in zip(self.WANTED, more)]
            short = [12 + which for which, rest in enumerate(more) if rest < 0]
            if short:
                expected = (short[0], self.WANTED[short[0] - 12]), [0, 0, 0]
            else:
                expected = (0, 0), [4 + 6 * 4, 2 + 5 * 4, 2 * 4]
            self.assertEqual(self.call([1], *lengths), expected)

    def test_marks_without_effect_want_no_more(self):
        wanted = (4 + 6 * 4, 2 + 5 * 3, 2 * 3)
        for marks in ([], [0], [2, 3], [4, 5, MOST]):
            self.assertEqual(self.call(marks, *wanted), ((0, 0), [4 + 6 * 3, 2 + 5 * 3, 2 * 3]))
            self.assertEqual(self.call(marks, wanted[0] - 1, *wanted[1:]), ((12, wanted[0]), [0, 0, 0]))

    def test_a_malformed_table_writes_nothing(self):
        self.assertEqual(self.call([2, 1], 100, 100, 100), ((34, 0), [0, 0, 0]))


def written(numbers):
    """How many elements of a buffer, from its beginning, are not as they were."""
    while numbers and numbers[-1] == 0xA5:
        numbers.pop()
    return len(numbers)


if __name__ == "__main__":
    unittest.main()
