"""Short plans: at most jobs + intervals - 1 steps, the plan buffer that is wanted, and which of the plans with its loads one is."""

import ctypes
import random
import unittest

import ramyearly
from ramyearly import archive, operations
from definitions import altered_by_definition, random_jobs, spans_of

T = [(2, 10), (4, 20)]


def random_levels(draw):
    """Slow ones, so that loads reach several bands."""
    frequencies = sorted(draw.sample(range(1, 50), draw.randint(1, 5)))
    return list(zip(frequencies, sorted(draw.randint(1, 500) for _ in frequencies)))


def random_marks(draw):
    return sorted(draw.sample(range(45), draw.randrange(9)))


def pairs_of(jobs, marks=()):
    """K: the number of (job, interval) pairs where the job is open."""
    spans = spans_of(jobs, marks)
    return sum(release <= start and end <= deadline for release, deadline, _ in jobs for start, end in spans)


def tables_of(jobs, marks):
    return operations.level_table(T), operations.job_table(jobs), operations.mark_table(marks)


def limit_of(jobs, marks=()):
    """The most steps that a plan may have."""
    return min(len(jobs) + len(spans_of(jobs, marks)) - 1, pairs_of(jobs, marks)) if jobs else 0


def filled(jobs, marks, loads):
    """The steps that fill these loads interval by interval and in each by job number. A job gets what it has left, but no more
    than must still go across any bound before its deadline."""
    spans = spans_of(jobs, marks)
    left = [cycles for _, _, cycles in jobs]
    # For each end but the last one: the cycles that run before it and are of jobs with a later deadline.
    across = {}
    for number, (_, end) in enumerate(spans[:-1]):
        across[end] = sum(loads[: number + 1]) - sum(cycles for _, deadline, cycles in jobs if deadline <= end)
    steps = []
    for number, (start, end) in enumerate(spans):
        for job, (release, deadline, _) in enumerate(jobs):
            if release <= start and end <= deadline:
                later = [bound for bound in across if start < bound < deadline]
                amount = min([left[job], *(across[bound] for bound in later)])
                left[job] -= amount
                for bound in later:
                    across[bound] -= amount
                if amount:
                    steps.append((number, job, amount))
    return steps


def loads_of(steps, intervals):
    loads = [0] * intervals
    for interval, _, cycles in steps:
        loads[interval] += cycles
    return loads


class Steps(unittest.TestCase):
    def check(self, levels, jobs, planned, marks=()):
        self.assertLessEqual(len(planned.steps), limit_of(jobs, marks))
        self.assertEqual(planned.steps, filled(jobs, marks, loads_of(planned.steps, len(planned.spans))))
        self.assertEqual(ramyearly.check(levels, jobs, planned.steps, planned.prices, marks=marks), planned.energy)

    def test_known_sites(self):
        """One interval; the one least plan of a site; sites with several least plans, whose prices are the same."""
        for jobs, prices, steps in (
            ([(0, 2, 3), (0, 2, 4)], [2], [(0, 0, 3), (0, 1, 4)]),
            ([(0, 4, 6), (2, 3, 4)], [1, 2, 1], [(0, 0, 4), (1, 1, 4), (2, 0, 2)]),
            ([(0, 2, 4), (1, 2, 1)], [2, 2], None),
            ([(0, 3, 1), (0, 2, 2), (0, 1, 1)], [1, 1, 1], None),
            ([(0, 3, 7), (1, 2, 2), (0, 2, 2)], [2, 2, 2], None),
        ):
            planned = ramyearly.plan(T, jobs)
            self.assertEqual([price for _, price in planned.prices], prices)
            self.assertIn(steps, (None, planned.steps))
            self.check(T, jobs, planned)

    def test_random_sites(self):
        draw = random.Random(10)
        met = {"limit": 0, "pairs": 0, "plans": 0}
        for _ in range(1500):
            levels, jobs = random_levels(draw), random_jobs(draw)
            marks = random_marks(draw) if draw.randrange(2) else []
            try:
                planned = ramyearly.plan(levels, jobs, marks=marks)
            except ramyearly.Overfull:
                continue
            self.check(levels, jobs, planned, marks)
            limit = len(jobs) + len(planned.spans) - 1
            met["plans"] += 1
            met["limit"] += bool(jobs) and len(planned.steps) == limit < pairs_of(jobs, marks)
            met["pairs"] += len(planned.steps) == pairs_of(jobs, marks) < limit
        self.assertTrue(all(met.values()), met)

    def test_parameters(self):
        """The jobs and the intervals are those of the altered tables."""
        draw = random.Random(11)
        for _ in range(300):
            levels, jobs = random_levels(draw), random_jobs(draw)
            highest, free, margin = draw.randint(1, len(levels)), draw.randrange(3), draw.choice([0, 10, 100])
            altered_levels, altered_jobs = altered_by_definition(levels, jobs, highest, free, margin)
            try:
                planned = ramyearly.plan(levels, jobs, highest=highest, free=free, margin=margin)
            except (ramyearly.Overfull, ramyearly.Refused):
                continue
            self.check(altered_levels, altered_jobs, planned)

    def test_the_largest_site(self):
        """64 jobs, each window inside the one before, and 8 marks in the last one: 135 intervals and 4,608 pairs, and as many
        steps as there can be."""
        levels = [(300, 10), (350, 15), (400, 20), (450, 30), (500, 40)]
        jobs = [(number, 200 - number, 900 + 37 * number % 311) for number in range(64)]
        marks = list(range(70, 78))
        planned = ramyearly.plan(levels, jobs, marks=marks)
        self.assertEqual((len(planned.spans), pairs_of(jobs, marks), limit_of(jobs, marks)), (135, 4608, 198))
        self.assertEqual((len(planned.steps), len(planned.plan_bytes)), (198, 1192))
        self.check(levels, jobs, planned, marks)


class PlanBuffer(unittest.TestCase):
    """What refusal 12 wants: 4 + 6 x the smaller of jobs + intervals - 1 and the pairs, 4 for no jobs."""

    SITES = (
        ([], [], 4),
        ([], [3], 4),
        ([(0, 5, 1)], [], 10),
        ([(0, 5, 1)], [1, 2, 3], 4 + 6 * 4),
        ([(0, 5, 1), (0, 5, 1), (0, 5, 1)], [], 4 + 6 * 3),
        # 2 jobs in 3 intervals: 4 pairs, as many as jobs + intervals - 1.
        ([(0, 4, 6), (2, 3, 4)], [], 4 + 6 * 4),
        # Apart, with an interval between: 2 pairs, and 4 of the other number.
        ([(0, 1, 1), (5, 6, 1)], [], 4 + 6 * 2),
        # 3 jobs in 5 intervals: 9 pairs, and 7 of the other number.
        ([(0, 5, 1), (1, 4, 1), (2, 3, 1)], [], 4 + 6 * 7),
    )

    def call(self, jobs, marks, length):
        """The answer's number and place, and whether the buffer stayed as it was behind what is answered."""
        plan = (ctypes.c_uint8 * 100)(*[0xA5] * 100)
        prices, shares = (ctypes.c_uint8 * 100)(), (ctypes.c_uint32 * 100)()
        site = archive.site(*tables_of(jobs, marks))
        lent = (ctypes.addressof(plan), length, ctypes.addressof(prices), 100, ctypes.addressof(shares), 100)
        answer = archive.library().ramyearly_plan(*site, *lent)
        used = 0 if answer.number else 4 + 6 * answer.steps
        self.assertEqual(bytes(plan)[used:], b"\xa5" * (100 - used))
        return answer.number, answer.place

    def test_lengths(self):
        for jobs, marks, wanted in self.SITES:
            self.assertEqual(wanted, 4 + 6 * limit_of(jobs, marks))
            for length in {0, 3, max(wanted - 6, 0), wanted - 1}:
                self.assertEqual(self.call(jobs, marks, length), (12, wanted))
            for length in wanted, wanted + 1, 100:
                self.assertEqual(self.call(jobs, marks, length), (0, 0))


if __name__ == "__main__":
    unittest.main()
