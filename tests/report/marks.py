"""Tests of the pages of sites that have handover marks."""

import re

from pages import HTML, SVG, WithSamples, facts_of, rows_of, terms_of, text_of, verdict_of
from samples import MARKED

CUTS = "cuts: an interval ends here, and the next one begins"


def pictures_of(page):
    """The pictures of a page by name: jobs, clock and load."""
    return {svg.get("aria-labelledby").split("-")[0]: svg for svg in page.iter(f"{SVG}svg")}


def lines_of(svg):
    """What the lines of handovers say, and where they stand."""
    titles = [(text_of(title), line) for line in svg.iter(f"{SVG}line") for title in line.iter(f"{SVG}title")]
    return {said: float(line.get("x1")) for said, line in titles}


def words_of(svg):
    return [text for text in svg.iter(f"{SVG}text") if text_of(text) == "handover"]


def effects_of(page):
    return [row[-1] for row in rows_of(page, "mark-table")]


def bounds_by_definition(jobs, marks):
    times = {time for release, deadline, _ in jobs for time in (release, deadline)}
    return sorted(times | {mark for mark in marks if min(times) < mark < max(times)})


class Marks(WithSamples):
    def test_the_example(self):
        page = self.parsed("handover")
        facts = facts_of(page)
        self.assertEqual((facts["Handovers"], facts["Intervals"]), (["2", "at 480 and 960; 1,440 has no effect"], ["14"]))
        rows = [["0", "2", "480", CUTS], ["1", "3", "960", CUTS]]
        outside = ["2", "4", "1,440", "no effect: not before the latest deadline, 1,440"]
        self.assertEqual(rows_of(page, "mark-table"), [*rows, outside])
        self.assertIn("3 marks, from", text_of(page))
        self.assertIn("Handover", terms_of(page))
        self.assertIn("releases, deadlines or handovers", terms_of(page)["Interval"])
        for svg in pictures_of(page).values():
            self.assertEqual(list(lines_of(svg)), ["handover at 480", "handover at 960"])
            self.assertEqual(len(words_of(svg)), 2)
            self.assertIn("480", [text_of(text) for text in svg.iter(f"{SVG}text")])
        captions = [text_of(caption) for caption in page.iter(f"{HTML}figcaption")]
        self.assertEqual([caption.count("is a handover") for caption in captions], [1, 1, 1])

    def test_a_line_stands_where_intervals_meet(self):
        svg = pictures_of(self.parsed("handover"))["jobs"]
        cells = {text_of(title): box for box in svg.iter(f"{SVG}rect") for title in box.iter(f"{SVG}title")}
        for said, cell in (
            ("handover at 480", "job 1 in interval 3 (480 to 540): 18,000 cycles"),
            ("handover at 960", "job 6 in interval 11 (960 to 980): 9,000 cycles"),
        ):
            self.assertEqual(lines_of(svg)[said], float(cells[cell].get("x")))

    def test_intervals_by_definition(self):
        tried = 0
        for name, (jobs, marks) in MARKED.items():
            rows = rows_of(self.parsed(name), "interval-table")
            if rows:
                bounds = bounds_by_definition(jobs, marks)
                self.assertEqual([row[1:3] for row in rows], [[f"{a:,}", f"{b:,}"] for a, b in zip(bounds, bounds[1:])])
                tried += 1
        self.assertEqual(tried, 7)

    def test_effects(self):
        effects = [
            "no effect: not after the earliest release, 10",
            "no effect: not after the earliest release, 10",
            "cuts nothing more: a release and a deadline are there already",
            CUTS,
            "no effect: not before the latest deadline, 200",
            "no effect: not before the latest deadline, 200",
        ]
        page = self.parsed("marks of all kinds")
        self.assertEqual(effects_of(page), effects)
        self.assertEqual(facts_of(page)["Handovers"], ["2", "at 40 and 60; 5, 10, 200 and 201 have no effect"])
        there = ("a release and a deadline are", "a release is", "a deadline is")
        page = self.parsed("handovers on bounds")
        self.assertEqual(effects_of(page), [f"cuts nothing more: {words} there already" for words in there])
        # A handover is there all the same.
        self.assertEqual(list(lines_of(pictures_of(page)["clock"])), [f"handover at {tick}" for tick in (40, 100, 120)])

    def test_marks_outside(self):
        page = self.parsed("marks outside")
        self.assertEqual(facts_of(page)["Handovers"], ["0", "0, 200, 1,000,000 and 4,294,967,295 have no effect"])
        for svg in pictures_of(page).values():
            self.assertEqual((lines_of(svg), words_of(svg)), ({}, []))
        self.assertNotIn("dashed line from top", text_of(page))

    def test_an_overfull_window(self):
        """No plan comes out, and the bounds are the archive's all the same."""
        page = self.parsed("handovers, overfull")
        self.assertIn("from 100 to 120 jobs 2 and 3 need 2,500 cycles more", verdict_of(page))
        self.assertEqual((facts_of(page)["Handovers"], effects_of(page)), (["3", "at 60, 110 and 160"], [CUTS] * 3))
        svg = pictures_of(page)["jobs"]
        self.assertEqual(list(lines_of(svg)), ["handover at 60", "handover at 110", "handover at 160"])
        above = next(text for text in svg.iter(f"{SVG}text") if text_of(text).startswith("overfull: "))
        self.assertEqual([float(word.get("y")) - float(above.get("y")) > 12 for word in words_of(svg)], [True] * 3)
        self.assertIsNone(rows_of(page, "interval-table"))

    def test_words_that_have_no_room(self):
        """Every handover has its line. Those close together have one word."""
        for name, words in (("handovers, crowded", 1), ("handovers at both ends", 2), ("handovers, large", 8)):
            page, marks = self.parsed(name), MARKED[name][1]
            for svg in page.iter(f"{SVG}svg"):
                self.assertEqual(list(lines_of(svg)), [f"handover at {mark:,}" for mark in marks])
                self.assertEqual(len(words_of(svg)), words)

    def test_tasks(self):
        """Marks are ticks of one round."""
        page = self.parsed("handovers, tasks")
        self.assertEqual(facts_of(page)["Handovers"], ["1", "at 30; 60 has no effect"])
        self.assertIn(["30"], [row[1:2] for row in rows_of(page, "interval-table")])

    def test_bytes(self):
        page = self.parsed("marks in bytes")
        self.assertEqual(rows_of(page, "mark-table"), [["0", "20", CUTS], ["1", "60", CUTS]])

    def test_no_jobs(self):
        page = self.parsed("marks, no jobs")
        self.assertIn("The job list is empty", verdict_of(page))
        self.assertEqual(effects_of(page), ["no effect: there are no jobs"] * 2)
        self.assertEqual(rows_of(page, "source-table")[2][::2], ["Marks", "2 marks"])

    def test_a_site_without_marks_says_nothing_of_them(self):
        for name in ("guard-round", "overfull", "empty", "three tasks", "no marks in bytes", "refused level"):
            main = text_of(self.parsed(name).find(f".//{HTML}main"))
            self.assertEqual(re.findall(r"[Hh]andover|[Mm]ark list|marks\.", main), [])

    def test_files_that_mean_no_marks(self):
        for name, state in (("empty marks", "empty: no marks"), ("marks that can't be read", "Is a directory: no marks")):
            page = self.parsed(name)
            self.assertIn("The job list is empty", verdict_of(page))
            self.assertIsNone(rows_of(page, "mark-table"))
            self.assertEqual(rows_of(page, "source-table")[2][::2], ["Marks", state])

    def test_refusals(self):
        for name, words, row in (
            ("marks that fall", "marks.txt line 4: mark 40 is not above 50 before it (refusal 34)", ["\u25b8 2", "4", "40"]),
            ("marks that fall, in bytes", "marks.tbl: mark 20 is not above 20 before it (refusal 34)", ["\u25b8 1", "20"]),
            ("too many marks", "marks.txt: 9 marks, but a table has at most 8 (refusal 34)", None),
            ("short marks", "marks.tbl: 3 bytes, but marks number 2, which takes 10 (refusal 34)", None),
        ):
            page = self.parsed(name)
            self.assertIn(words, verdict_of(page))
            marked = [[text_of(cell) for cell in row] for row in page.iter(f"{HTML}tr") if row.get("class") == "marked"]
            self.assertEqual(marked, [[*row, "\u25c2 refused"]] if row else [])
            self.assertEqual([row[0] for row in rows_of(page, "source-table")], ["Levels", "Jobs", "Marks"])
