"""Boards on plain values: the working frequencies of a level table, and one plan for boards that have the same ones."""

import random
import unittest

import ramyearly
from ramyearly import operations
from definitions import energies_by_definition, random_jobs, random_levels, working_by_definition
from faults import TABLE_FAULTS

T = [(2, 10), (4, 20)]
# Powers 10,000 and 20,000. Both work where idling draws power, and only the upper one otherwise.
PAIR = [(100, 10), (200, 10)]
JOBS = [(0, 4, 6), (2, 3, 4)]
LEVEL_FAULTS = (1, 2, 3, 4, 5, 31, 32)


def frequencies_by_definition(levels):
    return [frequency for frequency, _ in working_by_definition(levels)][1:]


class WorkingFrequencies(unittest.TestCase):
    def test_each_level_works(self):
        for levels in (
            T,
            [(1, 1)],
            [(1000, 500)],
            [(300, 90), (400, 100), (533, 110), (667, 120), (800, 130)],
            [(300, 140), (350, 150), (400, 160), (450, 170), (500, 180)],
            [(1, 1), (2, 2), (3, 3), (4, 4), (5, 5), (6, 6), (7, 7), (1000, 500)],
        ):
            self.assertEqual(ramyearly.working_frequencies(levels), [frequency for frequency, _ in levels])

    def test_dropped_levels(self):
        for levels, working in (
            (PAIR, [200]),
            ([(100, 10), (110, 20), (300, 21)], [100, 300]),
            ([(1, 500), (999, 500), (1000, 500)], [1000]),
            # Against levels that are no neighbours.
            ([(100, 10), (110, 30), (120, 31), (300, 32)], [100, 300]),
        ):
            self.assertEqual(ramyearly.working_frequencies(levels), working)

    def test_idle_draw(self):
        self.assertEqual(ramyearly.working_frequencies([(0, 5), *PAIR]), [100, 200])
        self.assertEqual(ramyearly.working_frequencies([(0, 0), *PAIR]), [200])
        self.assertEqual(ramyearly.working_frequencies([(0, 65535), (1000, 500)]), [1000])

    def test_by_definition(self):
        draw = random.Random(7)
        for _ in range(300):
            drawing = random_levels(draw, draw.randint(1, 7))
            for levels in (drawing, drawing[1:]):
                self.assertEqual(ramyearly.working_frequencies(levels), frequencies_by_definition(levels))

    def test_refusals(self):
        """They are those of reading the levels, in the same words."""
        for number in LEVEL_FAULTS:
            levels = TABLE_FAULTS[number]["levels"]
            with self.assertRaises(ramyearly.Refused) as caught:
                operations.working_frequencies_of(levels)
            with self.assertRaises(ramyearly.Refused) as planned:
                operations.plan_tables(levels, b"\0\0", b"\0\0")
            self.assertEqual(caught.exception.number, number)
            self.assertEqual(str(caught.exception), str(planned.exception))
        with self.assertRaises(ramyearly.Refused) as caught:
            ramyearly.working_frequencies([(0, 1), *T])
        self.assertEqual((caught.exception.number, caught.exception.place), (32, 1))

    def test_values_without_room(self):
        with self.assertRaises(ValueError) as caught:
            ramyearly.working_frequencies([(2, 65536)])
        self.assertEqual(str(caught.exception), "voltage 65536 does not fit in 16 bits (0 to 65535)")


def another_board(draw, working):
    """A board with these working frequencies: other voltages, and by chance an idle entry and levels that are dropped."""
    while True:
        frequencies = sorted({*working, *(draw.randint(1, working[-1]) for _ in range(draw.randrange(3)))})
        levels = list(zip(frequencies, sorted(draw.randint(1, 500) for _ in frequencies)))
        most = min((levels[0][0] * levels[0][1] ** 2 - 1) // 1000, 65535)
        levels = draw.choice((levels, [(0, draw.randint(0, most)), *levels]))
        if frequencies_by_definition(levels) == working:
            return levels


def damaged(draw, planned):
    """The steps and prices of a plan, with one of them changed, left out or repeated."""
    steps, prices = list(planned.steps), list(planned.prices)
    entries = draw.choice([entries for entries in (steps, prices) if entries])
    place = draw.randrange(len(entries))
    *first, last = entries[place]
    change = draw.choice(("left out", "repeated", "changed", "changed", "changed"))
    if change == "left out":
        del entries[place]
    elif change == "repeated":
        entries.append(entries[place])
    else:
        entries[place] = (*first, max(last + draw.choice((-1, 1)), 0))
    return steps, prices


def outcome(levels, jobs, steps, prices):
    """The number and the place of the check's refusal, or None where the plan is accepted."""
    try:
        ramyearly.check(levels, jobs, steps, prices)
    except ramyearly.Refused as refusal:
        return refusal.number, refusal.place
    return None


class OnePlan(unittest.TestCase):
    def test_a_site(self):
        """8 cycles run in the first band and 2 in the second: on the second board at 81 and 641, on the third at 400 and 2,300
        beyond a draw of 1,000 in 4 ticks."""
        planned = ramyearly.plan(T, JOBS)
        for levels, energy in (
            (T, 2200),
            ([(2, 9), (4, 19)], 8 * 81 + 2 * 641),
            ([(0, 1), (2, 30), (4, 40)], 4 * 1000 + 8 * 400 + 2 * 2300),
            ([(2, 10), (3, 20), (4, 20)], 2200),
        ):
            self.assertEqual(ramyearly.working_frequencies(levels), [2, 4])
            self.assertEqual(ramyearly.check(levels, JOBS, planned.steps, planned.prices), energy)
            self.assertEqual(ramyearly.plan(levels, JOBS).energy, energy)

    def test_the_same_frequencies_given(self):
        """Of which not all work: the bands are others, and the prices are refused."""
        planned = ramyearly.plan(T, JOBS)
        self.assertEqual(outcome([(2, 20), (4, 20)], JOBS, planned.steps, planned.prices), (22, 1))

    def test_boards_at_random(self):
        """What one board takes the other takes too, with a figure of its own; what one refuses the other refuses likewise."""
        draw, numbers = random.Random(11), set()
        for _ in range(150):
            levels = random_levels(draw, draw.randint(1, 4))[draw.randrange(2) :]
            other = another_board(draw, frequencies_by_definition(levels))
            jobs = [(release, deadline, cycles * levels[-1][0] // 400 + 1) for release, deadline, cycles in random_jobs(draw)]
            planned = ramyearly.plan(levels, jobs)
            energy = ramyearly.check(other, jobs, planned.steps, planned.prices)
            figure, _ = energies_by_definition(other, planned)
            self.assertEqual((energy, ramyearly.plan(other, jobs).energy), (figure, figure))
            for _ in range(10 if jobs else 0):
                plan = damaged(draw, planned)
                refusal = outcome(levels, jobs, *plan)
                self.assertEqual(outcome(other, jobs, *plan), refusal)
                numbers.add(refusal and refusal[0])
        self.assertLessEqual({16, 17, 18, 19, 22, 23, 24}, numbers)


if __name__ == "__main__":
    unittest.main()
