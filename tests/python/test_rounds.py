"""Tasks on plain values: the jobs of one round, and each refusal at its boundary."""

import ctypes
import math
import random
import unittest

import ramyearly
from ramyearly import archive, operations, tables

T = [(2, 10), (4, 20)]
LIMIT = 1_000_000
MOST = 2**32 - 1


def table(entries):
    return tables.to_bytes(entries, tables.TASKS)


def by_definition(tasks):
    """The jobs of one round, and its length, tick by tick and at each tick by task."""
    multiple = math.lcm(*(period for _, period, _, _ in tasks))
    jobs, numbers = [], []
    for tick in range(multiple):
        for number, (phase, period, deadline, cycles) in enumerate(tasks):
            if tick >= phase and (tick - phase) % period == 0:
                jobs.append((tick, tick + deadline, cycles))
                numbers.append(number)
    return jobs, multiple, numbers


class Answers(unittest.TestCase):
    def test_a_round(self):
        rounds = ramyearly.rounds([(0, 20, 5, 3), (5, 30, 10, 4), (5, 60, 20, 7)])
        self.assertEqual(rounds.multiple, 60)
        self.assertEqual(rounds.jobs, [(0, 5, 3), (5, 15, 4), (5, 25, 7), (20, 25, 3), (35, 45, 4), (40, 45, 3)])
        self.assertEqual(rounds.tasks, [0, 1, 2, 0, 1, 0])
        self.assertEqual(rounds.job_bytes, tables.to_bytes(rounds.jobs, tables.JOBS))

    def test_by_definition(self):
        draw, tried = random.Random(1), 0
        while tried < 300:
            tasks = []
            for _ in range(draw.randrange(17)):
                period = draw.choice((1, 2, 3, 4, 6, 12, 24))
                deadline = draw.randint(1, period)
                tasks.append((draw.randint(0, period - deadline), period, deadline, draw.randint(1, 3)))
            jobs, multiple, numbers = by_definition(tasks)
            if len(jobs) > 64:
                self.assertRaises(ramyearly.Refused, ramyearly.rounds, tasks)
                continue
            rounds = ramyearly.rounds(tasks)
            self.assertEqual((rounds.jobs, rounds.multiple, rounds.tasks), (jobs, multiple, numbers))
            tried += 1

    def test_no_tasks(self):
        self.assertEqual(ramyearly.rounds([]), ([], 1, [], b"\0\0"))

    def test_at_the_limits(self):
        self.assertEqual(ramyearly.rounds([(0, 1, 1, 10**9)] * 16).jobs, [(0, 1, 10**9)] * 16)
        self.assertEqual(ramyearly.rounds([(0, LIMIT, LIMIT, 1)])[:2], ([(0, LIMIT, 1)], LIMIT))
        self.assertEqual(ramyearly.rounds([(LIMIT - 1, LIMIT, 1, 1)])[:2], ([(LIMIT - 1, LIMIT, 1)], LIMIT))
        rounds = ramyearly.rounds([(0, 1, 1, 1), (62, 63, 1, 2)])
        self.assertEqual((len(rounds.jobs), rounds.multiple, rounds.jobs[-1]), (64, 63, (62, 63, 2)))

    def test_buffers(self):
        """Too short by one byte nothing is written, and in a longer one nothing behind the table."""
        tasks = table([(0, 2, 1, 5), (0, 4, 4, 6)])
        jobs = tables.to_bytes([(0, 1, 5), (0, 4, 6), (2, 3, 5)], tables.JOBS)
        for length in (0, 1, 2, len(jobs) - 1, len(jobs), len(jobs) + 1, 1000):
            buffer = (ctypes.c_uint8 * 1001)(*[0xA5] * 1001)
            answer = archive.library().ramyearly_rounds(tasks, len(tasks), ctypes.addressof(buffer), length)
            written = jobs if length >= len(jobs) else b""
            fields = (0, 0, len(jobs), 4) if written else (12, len(jobs), 0, 0)
            self.assertEqual((answer.number, answer.place, answer.length, answer.multiple), fields)
            self.assertEqual(bytes(buffer), written + b"\xa5" * (1001 - len(written)))

    def test_repeated_plans(self):
        """A plan of one round, repeated, is accepted for the repeated jobs: with a stretch between two rounds and without."""
        for tasks in ([(0, 20, 8, 20), (5, 30, 10, 30), (0, 60, 60, 90)], [(3, 10, 4, 9), (12, 20, 5, 11)]):
            rounds = ramyearly.rounds(tasks)
            planned = ramyearly.plan(T, rounds.jobs)
            (start, _), (_, end) = planned.spans[0], planned.spans[-1]
            between = end - start < rounds.multiple
            jobs, steps, prices = [], [], []
            for later in range(0, 4 * rounds.multiple, rounds.multiple):
                if between and jobs:
                    prices.append((later + start, 1))
                first, before = len(prices), len(jobs)
                steps += [(first + interval, before + job, cycles) for interval, job, cycles in planned.steps]
                prices += [(later + end, price) for end, price in planned.prices]
                jobs += [(later + release, later + deadline, cycles) for release, deadline, cycles in rounds.jobs]
            self.assertEqual(ramyearly.check(T, jobs, steps, prices), 4 * planned.energy)


class Refusals(unittest.TestCase):
    def expect(self, data, number, place, said):
        with self.assertRaises(ramyearly.Refused) as caught:
            operations.rounds_of(data)
        refusal = caught.exception
        self.assertEqual((refusal.number, refusal.place, str(refusal)), (number, place, f"tasks: {said}"))

    def test_malformed_tables(self):
        one, many = table([(0, 1, 1, 1)]), table([(0, 1, 1, 1)] * 17)
        for data, said in (
            (b"", "0 bytes, but the sizes alone take 2 (refusal 28)"),
            (b"\0", "1 byte, but the sizes alone take 2 (refusal 28)"),
            (one[:-1], "17 bytes, but tasks number 1, which takes 18 (refusal 28)"),
            (one + b"\0", "19 bytes, but tasks number 1, which takes 18 (refusal 28)"),
            (b"\0\0\0", "3 bytes, but tasks number 0, which takes 2 (refusal 28)"),
            (many, "17 tasks, but a table has at most 16 (refusal 28)"),
            (many[:-1], "17 tasks, but a table has at most 16 (refusal 28)"),
            (b"\xff\xff", "65535 tasks, but a table has at most 16 (refusal 28)"),
        ):
            self.expect(data, 28, 0, said)

    def test_entries(self):
        sound = (0, 4, 4, 1)
        for entry, said in (
            ((0, 0, 1, 1), "the period is 0"),
            ((0, 0, 0, 0), "the period is 0"),
            ((0, 4, 0, 1), "the deadline is 0"),
            ((4, 4, 0, 1), "the deadline is 0"),
            ((3, 7, 5, 1), "phase 3 + deadline 5 is above the period 7"),
            ((4, 4, 1, 1), "phase 4 + deadline 1 is above the period 4"),
            ((0, 4, 5, 1), "phase 0 + deadline 5 is above the period 4"),
            # Sums that 32 bits have no room for.
            ((MOST, MOST, 1, 1), f"phase {MOST} + deadline 1 is above the period {MOST}"),
            ((1, 1, MOST, 1), f"phase 1 + deadline {MOST} is above the period 1"),
            ((MOST, 9, MOST, 1), f"phase {MOST} + deadline {MOST} is above the period 9"),
            ((0, 4, 4, 0), "cycles 0 are not in range (1 to 1,000,000,000)"),
            ((0, 4, 4, 10**9 + 1), "cycles 1000000001 are not in range (1 to 1,000,000,000)"),
            ((0, 4, 4, MOST), f"cycles {MOST} are not in range (1 to 1,000,000,000)"),
        ):
            for place in (0, 2, 15):
                # The first fault is named, and before the multiple, which would be too large.
                entries = [(0, LIMIT + 1, 1, 1)] * place + [entry] + [sound, (0, 0, 0, 0)][: 15 - place]
                self.expect(table(entries), 28, place, f"{said} (refusal 28, entry {place})")

    def test_multiples(self):
        for periods, said in (
            ([LIMIT + 1], "period 1000001 is above 1,000,000"),
            ([MOST], f"period {MOST} is above 1,000,000"),
            ([4, LIMIT, 3], "the least common multiple of the periods 4, 1000000 and 3 is above 1,000,000"),
            # These have more than 64 jobs too.
            ([1000, 1001], "the least common multiple of the periods 1000 and 1001 is above 1,000,000"),
            # In 32 bits these would be 65536.
            ([65536, 65537, 2], "the least common multiple of the periods 65536 and 65537 is above 1,000,000"),
            # Past 64 bits.
            ([2**31, 3**20, 5**13], f"period {2**31} is above 1,000,000"),
            ([2**32 - 5 - 2 * step for step in range(16)], f"period {2**32 - 5} is above 1,000,000"),
            ([997, 991, 983, 977, 971, 967, 953, 947], "the least common multiple of the periods 997, 991 and 983 is above 1,000,000"),
        ):
            self.expect(table([(0, period, 1, 1) for period in periods]), 29, 0, f"{said} (refusal 29)")
        # A period as large as there is, which is refused for its multiple alone.
        self.expect(table([(MOST - 1, MOST, 1, 1)]), 29, 0, f"period {MOST} is above 1,000,000 (refusal 29)")

    def test_counts_of_jobs(self):
        words = "with this task there are more than 64 jobs; the tasks before it make"
        for periods, said in (
            ([1, 64], f"{words} 1 in 1 tick"),
            ([64, 1], f"{words} 1 in 64 ticks"),
            ([1, 63, 63, 1], f"{words} 64 in 63 ticks"),
            ([999, 1001], f"{words} 1 in 999 ticks"),
            ([LIMIT, 10, 1], f"{words} 1 in 1000000 ticks"),
        ):
            self.expect(table([(0, period, 1, 1) for period in periods]), 30, 0, f"{said} (refusal 30)")


if __name__ == "__main__":
    unittest.main()
