"""Plans in cell order on plain values: what comes out, when two are equal, each refusal, and the buffer."""

import ctypes
import itertools
import random
import unittest

import ramyearly
from ramyearly import archive, operations, tables
from ramyearly.calls import Call
from definitions import random_jobs
from faults import PLAN_FAULTS, STEPS, TABLE_FAULTS, jobs_of, plan_of
from support import PAIR, PLAN, PRICES, TWO_JOBS

T = [(2, 10), (4, 20)]
JOBS = [(0, 4, 6), (2, 3, 4)]
PRICE_LIST = [(2, 1), (3, 2), (4, 1)]


def random_site(draw):
    """Levels, jobs and a plan of them."""
    frequencies = sorted(draw.sample(range(1, 50), draw.randint(1, 5)))
    levels = list(zip(frequencies, sorted(draw.randint(1, 500) for _ in frequencies)))
    while True:
        jobs = random_jobs(draw)
        try:
            return levels, jobs, ramyearly.plan(levels, jobs)
        except ramyearly.Overfull:
            continue


def shuffled(draw, steps):
    return draw.sample(steps, len(steps))


class Answers(unittest.TestCase):
    def test_every_spelling(self):
        for steps in itertools.permutations(STEPS):
            self.assertEqual(ramyearly.order(T, JOBS, steps, PRICE_LIST), (STEPS, PLAN))

    def test_no_jobs(self):
        self.assertEqual(ramyearly.order(T, [], [], []), ([], bytes(4)))

    def test_random_sites(self):
        """What comes out has the same steps, in cell order; the check accepts it as before, and ordering leaves it."""
        draw = random.Random(3)
        for _ in range(300):
            levels, jobs, planned = random_site(draw)
            steps = shuffled(draw, planned.steps)
            ordered = ramyearly.order(levels, jobs, steps, planned.prices)
            self.assertEqual(ordered.steps, sorted(steps))
            cells = tables.join_cells(sorted(steps))
            self.assertEqual(ordered.plan_bytes, tables.to_bytes(cells, tables.PLAN, sizes=(len(planned.prices),)))
            self.assertEqual(ramyearly.check(levels, jobs, ordered.steps, planned.prices), planned.energy)
            self.assertEqual(ramyearly.order(levels, jobs, ordered.steps, planned.prices), ordered)

    def test_equal_exactly_for_equal_shares(self):
        """Each plan of this site, in each order of its steps: the bytes that come out are those of its shares alone."""
        jobs, prices, spellings = [(0, 4, 6), (2, 3, 1)], [(2, 1), (3, 1), (4, 1)], {}
        for first, second in itertools.product(range(5), range(2)):
            shares = [(0, 0, first), (1, 0, second), (1, 1, 1), (2, 0, 6 - first - second)]
            steps = [step for step in shares if step[2]]
            if 6 - first - second > 2:
                # Two cycles are all that the first level gives in the last interval.
                self.assertRaises(ramyearly.Refused, ramyearly.order, T, jobs, steps, prices)
                continue
            come_out = {ramyearly.order(T, jobs, spelled, prices).plan_bytes for spelled in itertools.permutations(steps)}
            self.assertEqual(len(come_out), 1)
            spellings[tuple(steps)] = come_out.pop()
        self.assertEqual((len(spellings), len(set(spellings.values()))), (3, 3))

    def test_other_levels_and_other_prices(self):
        """A plan has no word of them. Loads at the end of a band let a price be the one above, too."""
        for levels in (T, [(0, 0), *T], [(2, 11), (4, 11)], [(1, 1), (2, 10), (4, 20)]):
            planned = ramyearly.plan(levels, JOBS)
            self.assertEqual(ramyearly.order(levels, JOBS, STEPS[::-1], planned.prices), (STEPS, PLAN))
        self.assertEqual(ramyearly.order(T, JOBS, STEPS[::-1], [(2, 2), (3, 2), (4, 2)]), (STEPS, PLAN))

    def test_the_longest_plan(self):
        """64 jobs over 127 intervals, with a step for each of the 4,096 pairs of a job and an interval that it is open in."""
        jobs = [(number, 128 - number, 128 - 2 * number) for number in range(64)]
        steps = [(interval, job, 1 + (interval == 63)) for job in range(64) for interval in range(job, 127 - job)]
        prices = [(end, 1) for end in (*range(1, 64), *range(65, 129))]
        self.assertEqual(len(steps), 4096)
        for spelled in (steps, steps[::-1], shuffled(random.Random(4), steps)):
            ordered = ramyearly.order([(1000, 1)], jobs, spelled, prices)
            self.assertEqual(ordered.steps, sorted(steps))


def prices_of(*entries):
    return {"prices": tables.to_bytes(entries, tables.PRICES)}


SOUND = Call(levels=PAIR, jobs=TWO_JOBS, plan=PLAN, prices=PRICES)
# For each refusal of the check what is replaced in the sound call.
FAULTS = {
    **TABLE_FAULTS,
    **PLAN_FAULTS,
    21: {"prices": PRICES + b"\0"},
    22: prices_of((2, 1), (4, 2), (4, 1)),
    23: prices_of((2, 1), (3, 1), (4, 1)),
    24: jobs_of((0, 2, 4), (1, 2, 1)) | plan_of((0, 0, 1), (1, 0, 3), (1, 1, 1), intervals=2) | prices_of((1, 1), (2, 2)),
}


class Refusals(unittest.TestCase):
    def test_those_of_the_check(self):
        """The same numbers, places and words."""
        self.assertEqual(sorted(FAULTS), [*range(1, 11), *range(15, 25), 31, 32])
        for number, fault in FAULTS.items():
            lent = SOUND._replace(**fault)[:5]
            with self.assertRaises(ramyearly.Refused) as checked:
                operations.check_tables(*lent)
            with self.assertRaises(ramyearly.Refused) as refused:
                operations.order_tables(*lent)
            self.assertEqual(refused.exception.number, number)
            self.assertEqual(vars(refused.exception), vars(checked.exception))

    def test_damaged_tables(self):
        """Bytes of any content: refused as by the check, or accepted and ordered."""
        draw, refused = random.Random(5), 0
        for _ in range(5000):
            lent = [bytearray(table) for table in SOUND[:5]]
            for _ in range(draw.randint(1, 2)):
                table = draw.choice(lent)
                table[draw.randrange(len(table))] = draw.choice((0, 1, 2, 3, 4, 64, draw.randrange(256)))
            lent = [bytes(table) for table in lent]
            checked, (ordered, buffer) = archive.check(*lent), archive.order(*lent)
            self.assertEqual((ordered.number, ordered.place), (checked.number, checked.place))
            refused += checked.number != 0
            if not checked.number:
                steps = tables.from_bytes(lent[3], tables.PLAN, "")[1]
                self.assertEqual(bytes(buffer), tables.to_bytes(sorted(steps), tables.PLAN, sizes=(3,)))
        self.assertTrue(1000 < refused < 5000)

    def test_values_without_room(self):
        for steps, prices, said in (
            ([(0, 64, 1)], [], "job 64 has no place in a cell (0 to 63)"),
            ([(1024, 0, 1)], [], "cell 65536 does not fit in 16 bits (0 to 65535)"),
            ([(0, 0, 2**32)], [], "cycles 4294967296 does not fit in 32 bits (0 to 4294967295)"),
            ([], [(1, 256)], "price 256 does not fit in 8 bits (0 to 255)"),
        ):
            with self.assertRaises(ValueError) as caught:
                ramyearly.order(T, [], steps, prices)
            self.assertEqual(str(caught.exception), said)


class Buffers(unittest.TestCase):
    def call(self, lent, length):
        """The answer's numbers, and 1001 bytes of which so many are lent."""
        buffer = (ctypes.c_uint8 * 1001)(*[0xA5] * 1001)
        answer = archive.library().ramyearly_order(
            *archive.site(*lent[:3]), *archive.tables(*lent[3:]), ctypes.addressof(buffer), length
        )
        return (answer.number, answer.place, answer.length), bytes(buffer)

    def test_lengths(self):
        """Too short by one byte nothing is written, and in a longer one nothing behind the plan."""
        spelled = SOUND._replace(**plan_of(*STEPS[::-1]))[:5]
        for length in (0, 1, 4, len(PLAN) - 1, len(PLAN), len(PLAN) + 1, 1000):
            written = PLAN if length >= len(PLAN) else b""
            fields = (0, 0, len(PLAN)) if written else (12, len(PLAN), 0)
            self.assertEqual(self.call(spelled, length), (fields, written + b"\xa5" * (1001 - len(written))))

    def test_a_plan_without_steps(self):
        lent = SOUND._replace(jobs=b"\0\0", plan=bytes(4), prices=b"\0\0")[:5]
        self.assertEqual(self.call(lent, 3), ((12, 4, 0), b"\xa5" * 1001))
        self.assertEqual(self.call(lent, 4), ((0, 0, 4), bytes(4) + b"\xa5" * 997))

    def test_refused(self):
        """A short buffer is said last, and none is written to."""
        for number, fault in FAULTS.items():
            lent = SOUND._replace(**fault)[:5]
            place = archive.check(*lent).place
            for length in (0, 1000):
                self.assertEqual(self.call(lent, length), ((number, place, 0), b"\xa5" * 1001))

    def test_the_package_asks_for_the_length(self):
        answer, buffer = archive.order(*SOUND[:5])
        self.assertEqual((answer.number, answer.length, bytes(buffer)), (0, len(PLAN), PLAN))


if __name__ == "__main__":
    unittest.main()
