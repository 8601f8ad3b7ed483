"""Tests of the pages of sites whose level list begins with an idle entry."""

import random
from fractions import Fraction

from ramyearly import tables
from ramyearly.report import figures
from ramyearly.report.wording import mixed

from pages import HTML, WithSamples, facts_of, rows_of, terms_of, text_of, verdict_of
from samples import IDLE_LEVELS

NOTHING = "\u2013"


class Idling(WithSamples):
    def test_the_example(self):
        """The figure, 295,000, is the idle draw of 40 ticks, 1,700 cycles at 50 and 100 cycles at 100."""
        page = self.parsed("idle-draw")
        facts = facts_of(page)
        self.assertEqual([*facts][:2], ["Energy figure", "Idle draw"])
        self.assertEqual((facts["Energy figure"], facts["Levels"]), (["295,000"], ["2"]))
        self.assertEqual(facts["Idle draw"], ["200,000", "5,000 in each tick, part of the figure"])
        rows = [["0", "4", "100", "0.10 V", "1", "50", "works"], ["1", "5", "200", "0.10 V", "2", "100", "works"]]
        idle = ["idle", "3", "0", NOTHING, NOTHING, NOTHING, "idles, and draws 5,000 in each tick"]
        self.assertEqual(rows_of(page, "level-table"), [idle, *rows])
        self.assertIn("2 levels and the idle entry, from", text_of(page))
        clock = [row[8:12] for row in rows_of(page, "interval-table")]
        self.assertEqual(clock[1], ["200", "1", "100", "3"])
        self.assertEqual(clock[3:], [[NOTHING, NOTHING, "idle", "20"], ["100", "7", "idle", "3"]])
        self.assertIn("Idle draw", terms_of(page))
        self.assertIn("The idle draw of all ticks", terms_of(page)["Energy figure"])

    def test_figures_by_definition(self):
        """Powers and prices of random tables, with the largest draw or a smaller one."""
        chance = random.Random(5)
        for _ in range(50):
            frequencies = sorted(chance.sample(range(1, 1001), chance.randint(1, 7)))
            running = list(zip(frequencies, sorted(chance.randint(1, 500) for _ in frequencies)))
            most = min((running[0][0] * running[0][1] ** 2 - 1) // 1000, 65535)
            draw = chance.choice((0, most, chance.randint(0, most)))
            levels = tables.to_bytes([(0, draw), *running], tables.LEVELS)
            self.assertEqual(figures.idle_power(levels), 1000 * draw)
            self.assertEqual(figures.idle_power(tables.to_bytes(running, tables.LEVELS)), 0)
            self.assertEqual(figures.top_frequency(levels), frequencies[-1])
            found = figures.level_list(levels)
            self.assertEqual([level[:3] for level in found], [(entry, *level) for entry, level in enumerate(running, start=1)])
            works = [level for level in found if level.works]
            points = [(0, 1000 * draw), *((level.frequency, level.frequency * level.voltage**2) for level in works)]
            prices = [Fraction(more - less, high - low) for (low, less), (high, more) in zip(points, points[1:])]
            self.assertEqual([level.price for level in works], prices)
            self.assertEqual(prices, sorted(set(prices)))

    def test_lines_of_the_levels(self):
        rows = rows_of(self.parsed("idle draw"), "level-table")
        price = mixed(Fraction(300 * 140**2 - 2_000_000, 300))
        self.assertEqual(rows[0][:3] + rows[0][-1:], ["idle", "1", "0", "idles, and draws 2,000,000 in each tick"])
        self.assertEqual(rows[1], ["0", "2", "300", "1.40 V", "1", price, "works"])
        self.assertEqual([row[:2] for row in rows[2:]], [[str(number), str(number + 2)] for number in range(1, 5)])
        in_bytes = rows_of(self.parsed("idle draw in bytes"), "level-table")
        self.assertEqual([row[:2] for row in in_bytes[:2]], [["idle", "0"], ["0", "300"]])
        self.assertEqual([row[1] for row in in_bytes], [str(frequency) for frequency, _ in IDLE_LEVELS])

    def test_the_largest_draw(self):
        facts = facts_of(self.parsed("idle draw, largest"))
        self.assertEqual(facts["Idle draw"], ["65,535,000,000,000", "65,535,000 in each tick, part of the figure"])

    def test_rounds(self):
        """A round takes the 50 ticks from 5 to 55, and repeats every 60."""
        facts = facts_of(self.parsed("idle draw, tasks"))
        self.assertEqual(facts["Idle draw"], ["100,000,000", "2,000,000 in each tick, part of the figure"])
        self.assertEqual(facts["Idle draw between rounds"], ["20,000,000", "10 ticks, not part of the figure"])
        self.assertNotIn("Idle draw between rounds", facts_of(self.parsed("idle draw")))

    def test_an_entry_that_draws_nothing(self):
        page = self.parsed("no idle draw")
        self.assertNotIn("Idle draw", text_of(page))
        rows = rows_of(page, "level-table")
        self.assertEqual(rows[0][-1], "idles, and draws nothing")
        self.assertEqual(rows[1][-1], "never used: a mix of other levels costs no more")
        self.assertEqual(rows[2], ["1", "3", "200", "0.10 V", "1", "100", "works"])

    def test_a_site_without_an_idle_entry_says_nothing_of_it(self):
        for name in ("guard-round", "overfull", "empty", "three tasks", "refused level"):
            page = self.parsed(name)
            for word in ("Idle draw", "idle entry", "idling draws", "and draws"):
                self.assertNotIn(word, text_of(page.find(f".//{HTML}main")))

    def test_no_jobs(self):
        for name, kind in (("idle draw, no jobs", "job"), ("idle draw, no tasks", "task")):
            page = self.parsed(name)
            self.assertIn(f"The {kind} list is empty: no time is planned, and the energy figure is 0.", verdict_of(page))
            self.assertEqual(rows_of(page, "level-table")[0][0], "idle")
            self.assertEqual(rows_of(page, "source-table")[0][2], "5 levels and the idle entry")

    def test_an_overfull_window(self):
        page = self.parsed("idle draw, overfull")
        self.assertIn("from 100 to 120 jobs 2 and 3 need 2,500 cycles more", verdict_of(page))
        self.assertEqual(rows_of(page, "level-table")[0][0], "idle")

    def test_refusals(self):
        running = "is not below the first running level's power 5880000 (300 x 140 x 140)"
        for name, line, words, state in (
            ("idle entry alone", 1, "the idle entry stands alone: no level follows it (refusal 31)", "0 levels"),
            ("two idle entries", 2, "frequency 0 is not in range (1 to 1,000) (refusal 4, entry 1)", "6 levels"),
            ("too much idle draw", 2, f"idling's power 5880000 (1,000 x draw 5880) {running} (refusal 32, entry 1)", "5 levels"),
        ):
            page = self.parsed(name)
            self.assertIn(f"levels.txt line {line}: {words}", verdict_of(page))
            rows = rows_of(page, "refused-table")
            self.assertEqual([row[0] for row in rows if row[-1] == "\u25c2 refused"], [f"\u25b8 {line - 1}"])
            if line > 1:
                self.assertEqual(rows[0][-1], "idle entry: draw in place of the voltage")
            self.assertEqual(rows_of(page, "source-table")[0][2], f"{state} and the idle entry")
