"""Tests of the pages of sites with parameters."""

import re

from pages import HTML, SVG, WithSamples, facts_of, rows_of, text_of, verdict_of
from samples import outcome_of, page_of

ALTERED = "all that stands here is about the altered ones."
NOT_ALLOWED = "not allowed: above the highest level"
NOTHING = "\u2013"


def heads_of(page, name):
    """The names of a table's columns."""
    boxes = [box for box in page.iter(f"{HTML}div") if box.get("aria-labelledby") == f"{name}-caption"]
    return [text_of(cell) for cell in boxes[0].find(f"{HTML}table/{HTML}thead/{HTML}tr")]


def said_of(page):
    """What is said of the parameters, or None."""
    found = [text_of(part) for part in page.iter(f"{HTML}p") if ALTERED in text_of(part)]
    return found[0].partition(ALTERED)[2].strip() if found else None


class WithParameters(WithSamples):
    def test_a_plan(self):
        """Every figure is that of the altered tables, and what was given stands beside them."""
        page = self.parsed("parameters")
        levels = "Only the lowest 3 running levels are allowed"
        free = "20 ticks are kept free before each deadline"
        margin = "each job's cycles have a margin of 20 percent, rounded up"
        self.assertEqual(said_of(page), f"{levels}, {free} and {margin}.")
        facts = facts_of(page)
        self.assertEqual((facts["Levels"], facts["Top frequency"]), (["3", "2 more not allowed"], ["400", "cycles per tick"]))
        self.assertEqual((facts["Time"], facts["Least spare"]), (["0 to 280", "280 ticks"], ["0 cycles", "from 0 to 180"]))
        names = ["Job", "Line", "Release", "Deadline", "Ticks", "Cycles", "Given deadline", "Given cycles"]
        self.assertEqual(heads_of(page, "job-table")[:-1], names)
        rows = [row[:-1] for row in rows_of(page, "job-table")]
        self.assertEqual(rows[0], ["0", "1", "0", "100", "100", "36,000", "120", "30,000"])
        self.assertEqual(rows[2], ["2", "3", "240", "280", "40", "14,400", "300", "12,000"])
        rows = rows_of(page, "level-table")
        self.assertEqual([row[-1] for row in rows], ["works"] * 3 + [NOT_ALLOWED] * 2)
        self.assertEqual(rows[3][:6], ["3", "4", "450", "1.70 V", NOTHING, NOTHING])
        self.assertIn("5 levels, from", text_of(page))
        # The pictures end at the altered latest deadline, and the mark lies between altered deadlines.
        ends = [row[2] for row in rows_of(page, "interval-table")]
        self.assertEqual(ends, ["70", "100", "180", "190", "240", "280"])
        jobs, clock, _ = ([text_of(text) for text in svg.iter(f"{SVG}text")] for svg in page.iter(f"{SVG}svg"))
        self.assertTrue("280" in jobs and "300" not in jobs)
        self.assertTrue("400" in clock and "450" not in clock)

    def test_the_page_is_that_of_a_site_altered_by_hand(self):
        """But for what is said of the parameters and of what was given."""
        altered, by_hand = self.samples.folder("parameters"), self.samples.folder("altered by hand")
        self.assertEqual(outcome_of(altered)[1], outcome_of(by_hand)[1])
        pictures = [re.findall(r"<svg.*?</svg>", page_of(folder), re.DOTALL) for folder in (altered, by_hand)]
        self.assertEqual(len(pictures[0]), 3)
        self.assertTrue(pictures[0] == pictures[1])
        for name in ("interval-table", "window-table", "step-table", "mark-table"):
            self.assertEqual(rows_of(self.parsed("parameters"), name), rows_of(self.parsed("altered by hand"), name))

    def test_each_alone(self):
        """Only what is altered is said and shown."""
        for name, said, given, levels in (
            ("highest level alone", "Only the lowest 2 running levels are allowed.", [], "2"),
            ("free ticks alone", "20 ticks are kept free before each deadline.", ["Given deadline"], "5"),
            ("margin alone", "Each job's cycles have a margin of 7 percent, rounded up.", ["Given cycles"], "5"),
        ):
            page = self.parsed(name)
            self.assertEqual(said_of(page), said)
            self.assertEqual(heads_of(page, "job-table")[6:-1], given)
            self.assertEqual(facts_of(page)["Levels"][0], levels)
        page = self.parsed("parameters that just alter")
        self.assertIn("1 tick is kept free before each deadline", said_of(page))
        self.assertEqual(facts_of(page)["Levels"], ["4", "1 more not allowed"])

    def test_nothing_altered(self):
        """The page is the same as without parameters."""
        names = ("parameters that alter nothing", "no parameters")
        pages = [page_of(self.samples.folder(name)).replace(name, "") for name in names]
        self.assertTrue(pages[0] == pages[1])
        self.assertIsNone(said_of(self.parsed("no parameters")))

    def test_idle_draw_and_tasks(self):
        page = self.parsed("parameters, idle draw")
        rows = rows_of(page, "level-table")
        self.assertEqual([row[0] for row in rows], ["idle", "0", "1", "2", "3", "4"])
        self.assertEqual([row[1] for row in rows], ["1", "2", "3", "4", "5", "6"])
        self.assertEqual(facts_of(page)["Idle draw"], ["560,000,000", "2,000,000 in each tick, part of the figure"])
        page = self.parsed("parameters, tasks")
        self.assertEqual(heads_of(page, "job-table")[1], "Task")
        self.assertEqual(rows_of(page, "job-table")[0][2:8], ["0", "55", "55", "6,600", "58", "6,000"])

    def test_an_overfull_window(self):
        page = self.parsed("parameters, overfull")
        self.assertIn("from 0 to 180 jobs 0 and 1 need 600 cycles more than the top frequency gives", verdict_of(page))
        self.assertIn("with highest 3, free 20, margin 21 (refusal 11, window 0 to 180, spare -600)", text_of(page))
        self.assertIn("margin of 21 percent", said_of(page))
        own = [["0", "1", "0", "100", "36,300", "120", "30,000"], ["1", "2", "70", "180", "36,300", "200", "30,000"]]
        self.assertEqual(rows_of(page, "own-job-table"), own)
        self.assertEqual(rows_of(page, "window-table")[0][1:6], ["0", "180", "72,000", "72,600", "\u2212600"])

    def test_no_jobs(self):
        page = self.parsed("parameters, no jobs")
        self.assertIn("The job list is empty", verdict_of(page))
        self.assertEqual(facts_of(page)["Levels"], ["3", "2 more not allowed"])
        self.assertEqual([row[2] for row in rows_of(page, "source-table")][0], "5 levels")

    def test_refusals(self):
        empty = "nothing is left of the window of job 2: deadline 300 less 60 ticks kept free is not after release 240"
        many = "cycles 1000000000 of job 0 with a margin of 1 percent are 1010000000, above 1,000,000,000"
        for name, said, parameters, row in (
            (
                "parameters, emptied window",
                f"jobs.txt line 3: {empty} (refusal 36, job 2)",
                "Only the lowest 3 running levels are allowed and 60 ticks are kept free before each deadline.",
                ["\u25b8 2", "3", "240", "300", "12,000"],
            ),
            (
                "parameters, too many cycles",
                f"jobs.txt line 1: {many} (refusal 36, job 0)",
                "Each job's cycles have a margin of 1 percent, rounded up.",
                ["\u25b8 0", "1", "0", "9", "1,000,000,000"],
            ),
            ("highest level out of range", "levels.txt: highest level 6 is not in range (1 to 5", None, None),
            ("margin out of range", "/margin out of range: margin 101 is not in range (0 to 100 percent)", None, None),
        ):
            page = self.parsed(name)
            self.assertIn(said, verdict_of(page))
            # The tables that are shown are those of the files.
            self.assertIsNone(said_of(page))
            found = [text_of(part) for part in page.iter(f"{HTML}p") if text_of(part).startswith("The site has parameters.")]
            self.assertEqual(found, [f"The site has parameters. {parameters}"] if parameters else [])
            marked = [[text_of(cell) for cell in row] for row in page.iter(f"{HTML}tr") if row.get("class") == "marked"]
            self.assertEqual(marked, [[*row, "\u25c2 refused"]] if row else [])
            self.assertEqual([row[0] for row in rows_of(page, "source-table")], ["Levels", "Jobs", "Marks"])
