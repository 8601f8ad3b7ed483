"""Level tables that begin with an idle entry, on plain values: the answers, and each refusal at its boundary."""

import random
import unittest

import ramyearly
from ramyearly import tables
from definitions import energies_by_definition, random_levels, working_by_definition
from support import InFolder

T = [(2, 10), (4, 20)]
# Powers 10,000 and 20,000. Both work where idling draws power, and only the upper one otherwise.
PAIR = [(100, 10), (200, 10)]
DRAWING = [(0, 5), *PAIR]
JOBS = [(0, 10, 600), (4, 8, 500), (30, 40, 700)]
STEPS = [(0, 0, 400), (1, 1, 500), (2, 0, 200), (4, 2, 700)]
PRICES = [(4, 1), (8, 2), (10, 1), (30, 1), (40, 1)]


class Answers(unittest.TestCase):
    def test_a_site(self):
        """The draw of 40 ticks is 200,000, 1,700 cycles cost 50 beyond it and 100 cycles cost 100."""
        planned = ramyearly.plan(DRAWING, JOBS)
        self.assertEqual((planned.energy, planned.steps, planned.prices), (200_000 + 85_000 + 10_000, STEPS, PRICES))
        self.assertEqual(ramyearly.check(DRAWING, JOBS, STEPS, PRICES), 295_000)
        self.assertEqual(ramyearly.plan(PAIR, JOBS).energy, 1800 * 100)

    def test_levels_that_work_for_the_draw(self):
        self.assertEqual([frequency for frequency, _ in working_by_definition(DRAWING)], [0, 100, 200])
        self.assertEqual([frequency for frequency, _ in working_by_definition(PAIR)], [0, 200])
        self.assertEqual(ramyearly.setting(DRAWING, 1, 100), (1, 100, 100))
        self.assertEqual(ramyearly.setting(DRAWING, 1, 101), (2, 1, 100))
        self.assertEqual(ramyearly.setting(PAIR, 1, 100), (1, 100, 200))
        self.assertEqual(ramyearly.setting(DRAWING, 3, 0), (0, 0, 0))

    def test_a_draw_of_nothing(self):
        """An idle entry that draws nothing changes no energy, no plan and no price."""
        jobs = [(0, 4, 6), (2, 3, 4)]
        for levels in (T, PAIR):
            self.assertEqual(ramyearly.plan([(0, 0), *levels], jobs), ramyearly.plan(levels, jobs))
            for load in range(0, 13):
                self.assertEqual(ramyearly.setting([(0, 0), *levels], 3, load), ramyearly.setting(levels, 3, load))

    def test_no_jobs(self):
        self.assertEqual(ramyearly.plan(DRAWING, []).energy, 0)
        self.assertEqual(ramyearly.check(DRAWING, [], [], []), 0)

    def test_the_spare_does_not_look_at_the_draw(self):
        self.assertEqual(ramyearly.spare(DRAWING, JOBS, 0, 10), ramyearly.spare(PAIR, JOBS, 0, 10))
        with self.assertRaises(ramyearly.Overfull) as caught:
            ramyearly.plan(DRAWING, [(0, 1, 201)])
        self.assertEqual((caught.exception.start, caught.exception.end, caught.exception.spare), (0, 1, -1))

    def test_the_largest_draw(self):
        levels = [(0, 65535), (1000, 500)]
        planned = ramyearly.plan(levels, [(0, 1_000_000, 1)])
        self.assertEqual(planned.energy, 65_535_000 * 1_000_000 + (250_000_000 - 65_535_000) // 1000)
        self.assertEqual(ramyearly.check(levels, [(0, 1_000_000, 1)], planned.steps, planned.prices), planned.energy)

    def test_repeated_rounds(self):
        """Two rounds in one table pay for the stretch between them: 30 ticks at 5,000."""
        once = ramyearly.plan(DRAWING, [(10, 20, 600)]).energy
        twice = ramyearly.plan(DRAWING, [(10, 20, 600), (50, 60, 600)]).energy
        self.assertEqual((once, twice), (80_000, 2 * once + 30 * 5_000))

    def test_by_definition(self):
        draw = random.Random(3)
        for _ in range(200):
            levels = random_levels(draw, draw.randint(1, 7))
            jobs = []
            for _ in range(draw.randint(1, 6)):
                release = draw.randrange(30)
                length = draw.randint(1, 20)
                jobs.append((release, release + length, draw.randint(1, length * levels[-1][0] // 6 + 1)))
            planned = ramyearly.plan(levels, jobs)
            figure, exact = energies_by_definition(levels, planned)
            self.assertEqual(planned.energy, figure)
            self.assertTrue(0 <= exact - figure < len(working_by_definition(levels)) - 1)
            self.assertEqual(ramyearly.check(levels, jobs, planned.steps, planned.prices), figure)

    def test_values_without_room(self):
        for levels, said in (
            ([(0, 65536), *T], "idle draw 65536 does not fit in 16 bits (0 to 65535)"),
            ([(0, -1), *T], "idle draw -1 does not fit in 16 bits (0 to 65535)"),
            ([(0, 5, 5), *T], "3 columns, but a first entry of frequency 0 has 2: frequency, idle draw"),
            ([(0,), *T], "1 column, but a first entry of frequency 0 has 2: frequency, idle draw"),
            # Anywhere else the place is the voltage's.
            ([*T, (0, 65536)], "voltage 65536 does not fit in 16 bits (0 to 65535)"),
            ([(), *T], "0 columns, but a level has 2: frequency, voltage"),
        ):
            with self.assertRaises(ValueError) as caught:
                ramyearly.plan(levels, [])
            self.assertEqual(str(caught.exception), said)


class Refusals(InFolder):
    """Each refusal at its boundary, on plain values and in a folder, in text and in bytes."""

    def expect(self, levels, number, place, entry, said):
        with self.assertRaises(ramyearly.Refused) as caught:
            ramyearly.plan(levels, [])
        refusal = caught.exception
        self.assertEqual((refusal.number, refusal.place, refusal.entry), (number, place, entry))
        self.assertEqual(str(refusal), f"levels: {said}")
        text = "# idle draw, levels\n" + "".join(f"{frequency} {voltage}\n" for frequency, voltage in levels)
        line = "" if entry is None else f" line {entry + 2}"
        for site, file in (
            (self.site(levels_txt=text, jobs_txt=""), f"levels.txt{line}"),
            (self.site(levels_csv=text.replace(" ", ","), jobs_txt=""), f"levels.csv{line}"),
            (self.site(levels_tbl=tables.to_bytes(levels, tables.LEVELS), jobs_txt=""), "levels.tbl"),
        ):
            ended = self.run_command(site)
            self.assertEqual((ended.returncode, ended.stdout), (1, f"refused {number} {place}\n"))
            self.assertEqual(ended.stderr, f"ramyearly: {site}/{file}: {said}\n")

    def test_the_idle_entry_alone(self):
        said = "the idle entry stands alone: no level follows it (refusal 31)"
        for draw in (0, 5, 65535):
            self.expect([(0, draw)], 31, 0, 0, said)
        with self.assertRaises(ramyearly.Refused) as caught:
            ramyearly.setting([(0, 5)], 0, 0)
        self.assertEqual(caught.exception.number, 31)

    def test_the_draw(self):
        said = "idling's power 10000 (1,000 x draw 10) is not below the first running level's power 10000 (100 x 10 x 10)"
        self.assertEqual(ramyearly.plan([(0, 9), *PAIR], []).energy, 0)
        self.expect([(0, 10), *PAIR], 32, 1, 1, f"{said} (refusal 32, entry 1)")
        said = "idling's power 65535000 (1,000 x draw 65535) is not below the first running level's power 200 (2 x 10 x 10)"
        self.expect([(0, 65535), *T], 32, 1, 1, f"{said} (refusal 32, entry 1)")
        # Before the faults of later levels.
        said = "idling's power 1000 (1,000 x draw 1) is not below the first running level's power 200 (2 x 10 x 10)"
        self.expect([(0, 1), (2, 10), (2, 9)], 32, 1, 1, f"{said} (refusal 32, entry 1)")

    def test_the_next_level_is_a_first_one(self):
        # Its voltage may be below the number of the draw.
        self.assertEqual(ramyearly.plan([(0, 400), (300, 90)], []).energy, 0)
        for levels, number, entry, said in (
            ([(0, 5), (0, 6), *PAIR], 4, 1, "frequency 0 is not in range (1 to 1,000)"),
            ([(0, 0), (0, 0)], 4, 1, "frequency 0 is not in range (1 to 1,000)"),
            ([(0, 5), (1001, 10)], 4, 1, "frequency 1001 is not in range (1 to 1,000)"),
            # Before 32, which would hold too.
            ([(0, 5), (100, 0)], 5, 1, "voltage 0 is not in range (1 to 500)"),
            ([(0, 600), (100, 501)], 5, 1, "voltage 501 is not in range (1 to 500)"),
            ([(0, 5), (100, 10), (100, 10)], 4, 2, "frequency 100 is not above 100 before it"),
            ([(0, 5), (100, 10), (200, 9)], 5, 2, "voltage 9 is below 10 before it"),
            # Anywhere else frequency 0 is out of order.
            ([(2, 10), (0, 5)], 4, 1, "frequency 0 is not above 2 before it"),
        ):
            self.expect(levels, number, entry, entry, f"{said} (refusal {number}, entry {entry})")

    def test_the_count_includes_it(self):
        levels = [(0, 1), *((n, 100) for n in range(1, 9))]
        self.expect(levels, 2, 0, None, "9 entries with the idle entry, but a table has 1 to 8 in all (refusal 2)")
        self.assertEqual(ramyearly.plan(levels[:-1], []).energy, 0)

    def test_bytes_of_a_wrong_length(self):
        for data, said in (
            (b"\1\0\0\0\5", "5 bytes, but levels number 1, which takes 6 (refusal 3)"),
            (b"\1\0\0\0\5\0\0", "7 bytes, but levels number 1, which takes 6 (refusal 3)"),
            (b"\0\0\0\0\5\0", "0 levels, but a table has 1 to 8 (refusal 2)"),
            (b"\x09\0\0\0\5\0", "9 levels, but a table has 1 to 8 (refusal 2)"),
        ):
            site = self.site(levels_tbl=data, jobs_txt="")
            self.assertEqual(self.run_command("plan", site).stderr, f"ramyearly: {site}/levels.tbl: {said}\n")


if __name__ == "__main__":
    unittest.main()
