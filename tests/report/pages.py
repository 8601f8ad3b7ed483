"""Tests of the pages as text: what stands in them, and that they are whole and need nothing from outside."""

import os
import re
import time
import unittest
from fractions import Fraction
from xml.etree import ElementTree

from ramyearly import operations, report, tables
from ramyearly.report import figures, pictures
from ramyearly.report.timeline import scale
from ramyearly.report.wording import mixed, thousands
from ramyearly.tables import entries_of

from samples import EXAMPLES, HOSTILE, LEVELS, MADE, ROOT, Samples, outcome_of, page_of

HTML = "{http://www.w3.org/1999/xhtml}"
SVG = "{http://www.w3.org/2000/svg}"
PICTURE = os.path.join(ROOT, "docs", "guard-round-jobs.svg")


def text_of(element):
    return "".join(element.itertext())


def verdict_of(page):
    return next(text_of(element) for element in page.iter() if "verdict" in element.get("class", "").split())


def rows_of(page, name):
    """The cells of a table's rows, as text, or None where there is no such table."""
    for box in page.iter(f"{HTML}div"):
        if box.get("aria-labelledby") == f"{name}-caption":
            return [[text_of(cell) for cell in row] for row in box.find(f"{HTML}table/{HTML}tbody")]
    return None


def facts_of(page):
    """The facts of a page by name, each as its value and its remark."""
    facts = next(group for group in page.iter(f"{HTML}dl") if group.get("class") == "facts")
    return {text_of(name): [*value.itertext()] for name, value in facts}


def terms_of(page):
    terms = next(group for group in page.iter(f"{HTML}dl") if group.get("class") == "terms")
    return {text_of(name): text_of(meaning) for name, meaning in terms}


class WithSamples(unittest.TestCase):
    @classmethod
    def setUpClass(cls):
        cls.samples = Samples()
        cls.addClassCleanup(cls.samples.clean_up)

    def parsed(self, name):
        return ElementTree.fromstring(page_of(self.samples.folder(name)))

    def planned(self):
        """For each site with a plan its page, its site and the plan."""
        for folder in self.samples.folders:
            site, outcome = outcome_of(folder)
            if isinstance(outcome, operations.Planned):
                yield ElementTree.fromstring(report.page("x", site, outcome)), site, outcome


class Pages(WithSamples):
    """What holds of every page."""

    def each(self):
        for folder in self.samples.folders:
            with self.subTest(folder):
                yield folder, page_of(folder)

    def test_the_same_twice(self):
        for folder, page in self.each():
            self.assertEqual(page, page_of(folder))

    def test_nothing_from_outside(self):
        for _, page in self.each():
            for address in re.findall(r"https?:[^\s\"']*", page):
                self.assertIn(address, (HTML.strip("{}"), SVG.strip("{}")))
            self.assertNotIn("<script", page)
            self.assertNotIn("@import", page)
            self.assertEqual(re.findall(r"url\((?!#)", page), [])
            for element in ElementTree.fromstring(page).iter():
                self.assertIsNone(element.get("src"))
                self.assertTrue(element.get("href", "#").startswith("#"))
                self.assertFalse(any(name.startswith("on") for name in element.attrib))

    def test_identifiers(self):
        for _, page in self.each():
            elements = list(ElementTree.fromstring(page).iter())
            names = [element.get("id") for element in elements if element.get("id")]
            self.assertEqual(len(names), len(set(names)))
            wanted = [word for element in elements for word in element.get("aria-labelledby", "").split()]
            wanted += [element.get("href")[1:] for element in elements if element.get("href")]
            wanted += re.findall(r"url\(#([^)]*)\)", page)
            self.assertLessEqual(set(wanted), set(names))

    def test_readable_by_any_means(self):
        for _, page in self.each():
            root = ElementTree.fromstring(page)
            self.assertEqual(root.get("lang"), "en")
            self.assertTrue(text_of(root.find(f"{HTML}head/{HTML}title")))
            headings = [element.tag[-2:] for element in root.iter() if re.fullmatch(r".*}h[1-6]", element.tag)]
            self.assertEqual(headings, ["h1"] + ["h2"] * (len(headings) - 1))
            for svg in root.iter(f"{SVG}svg"):
                self.assertEqual(svg.get("role"), "img")
                self.assertEqual([child.tag for child in svg[:2]], [f"{SVG}title", f"{SVG}desc"])
            for table in root.iter(f"{HTML}table"):
                self.assertTrue(text_of(table.find(f"{HTML}caption")))
                self.assertTrue(all(head.get("scope") and text_of(head) for head in table.iter(f"{HTML}th")))

    def test_html_as_well_as_xml(self):
        # In HTML an element without content is not closed by the slash of its own tag, except in a picture.
        for _, page in self.each():
            self.assertTrue(page.startswith("<!DOCTYPE html>\n"))
            self.assertEqual(set(re.findall(r"<(\w+)[^>]*/>", page)), {"meta"})
            self.assertLessEqual(set(re.findall(r"&\w+;", page)), {"&amp;", "&lt;", "&gt;", "&quot;"})

    def test_a_hostile_name_is_only_a_name(self):
        root = self.parsed(os.fsdecode(HOSTILE))
        self.assertEqual(text_of(root.find(f".//{HTML}h1")), "<b>&\"x' \ufffd\ufffd<i>")

    def test_the_largest_site_is_quick(self):
        for name, intervals in (("large", 127), ("crowded", 127), ("handovers, large", 135), ("handovers, crowded", 135)):
            site, outcome = outcome_of(self.samples.folder(name))
            self.assertEqual((len(site.sources[tables.JOBS].lines), len(outcome.spans)), (64, intervals))
            began = time.monotonic()
            report.page(name, site, outcome)
            self.assertLess(time.monotonic() - began, 2)


class Figures(WithSamples):
    """That the pages have the figures of the plan, of the archive and of the listing."""

    def test_every_step(self):
        for page, _, planned in self.planned():
            if planned.steps:
                rows = [[int(cell.replace(",", "")) for cell in row] for row in rows_of(page, "step-table")]
                self.assertEqual([(row[1], row[4], row[5]) for row in rows], planned.steps)
                self.assertEqual([(row[2], row[3]) for row in rows], [planned.spans[row[1]] for row in rows])

    def test_every_cycle_in_the_job_list_and_in_the_picture(self):
        for page, _, planned in self.planned():
            said = "\n".join(text_of(title) for title in page.iter(f"{SVG}title"))
            rows = rows_of(page, "job-table") or []
            for interval, job, cycles in planned.steps:
                self.assertIn(f"{interval}:\xa0{thousands(cycles)}", rows[job][-1].split("; "))
                start, end = map(thousands, planned.spans[interval])
                noun = "cycle" if cycles == 1 else "cycles"
                self.assertIn(f"job {job} in interval {interval} ({start} to {end}): {thousands(cycles)} {noun}", said)

    def test_intervals_as_in_the_listing(self):
        for name in os.listdir(EXAMPLES):
            with open(os.path.join(EXAMPLES, name, "expected.txt"), encoding="utf-8") as file:
                listing = [line.split() for line in file]
            spans = [[int(word) for word in words] for kind, *words in listing if kind == "span"]
            rows = rows_of(self.parsed(name), "interval-table") or []
            self.assertEqual(len(rows), len(spans))
            for row, (start, end, load, band, extra, gap, price) in zip(rows, spans):
                self.assertEqual(row[1:5], [thousands(number) for number in (start, end, end - start, load)])
                self.assertEqual([row[7], row[12]], [str(band or "\u2013"), str(price)])
                self.assertEqual(row[9], mixed(Fraction(extra, gap)) if band else "\u2013")

    def test_the_figure(self):
        for page, _, planned in self.planned():
            self.assertIn(thousands(planned.energy), [fact.text for fact in page.iter(f"{HTML}dd")])

    def test_the_clock_runs_the_load(self):
        for _, site, planned in self.planned():
            for interval in figures.intervals(site.data(tables.LEVELS), planned):
                ran = interval.upper * interval.upper_ticks + interval.lower * interval.lower_ticks
                self.assertEqual(ran, interval.load)
                runs = interval.runs()
                self.assertEqual([run.start for run in runs[1:]], [run.end for run in runs[:-1]])
                if runs:
                    self.assertEqual(runs[0].start, interval.start)
                    self.assertLessEqual(runs[-1].end, interval.end)

    def test_tightest_windows(self):
        for levels, jobs in MADE.values():
            if jobs and levels == LEVELS and all(release < deadline for release, deadline, _ in jobs):
                found = figures.tightest(tables.to_bytes(levels, tables.LEVELS), tables.to_bytes(jobs, tables.JOBS))
                self.assertEqual([tuple(window) for window in found], tightest_by_definition(jobs, levels[-1][0]))

    def test_levels(self):
        levels = tables.to_bytes([(100, 10), (110, 20), (300, 21)], tables.LEVELS)
        found = figures.level_list(levels)
        self.assertEqual([level.works for level in found], [True, False, True])
        self.assertEqual([level.band for level in found if level.works], [1, 2])
        self.assertEqual([level.price for level in found], [100, None, Fraction(300 * 21 * 21 - 100 * 10 * 10, 200)])
        self.assertEqual(figures.top_frequency(levels), 300)


def tightest_by_definition(jobs, top):
    found = []
    for start in {job[0] for job in jobs}:
        for end in {job[1] for job in jobs}:
            inside = [number for number, job in enumerate(jobs) if job[0] >= start and job[1] <= end]
            if start < end and inside:
                spare = (end - start) * top - sum(jobs[number][2] for number in inside)
                found.append((spare, end - start, start, end, inside))
    return [(start, end, length * top, spare, inside) for spare, length, start, end, inside in sorted(found)[:10]]


class Refusals(WithSamples):
    """Pages where no plan comes out."""

    def test_an_overfull_window(self):
        page = self.parsed("overfull round")
        self.assertIn("from 100 to 120 jobs 2 and 3 need 2,500 cycles more", verdict_of(page))
        facts = [text_of(fact) for fact in page.iter(f"{HTML}dd")]
        for said in ("100 to 12020 ticks", "12,500 cycles", "10,000 cycles", "\u22122,500cycles"):
            self.assertIn(said, facts)
        own = [["2", "4", "100", "120", "8,500"], ["3", "5", "105", "118", "4,000"]]
        self.assertEqual(rows_of(page, "own-job-table"), own)
        self.assertEqual(rows_of(page, "window-table")[0][1:3], ["100", "120"])
        labels = [text_of(text) for text in page.iter(f"{SVG}text")]
        self.assertIn("overfull: 100 to 120, 2,500 cycles too many", labels)
        self.assertEqual([label for label in labels if label.startswith("\u25b8")], ["\u25b8 job 2", "\u25b8 job 3"])
        self.assertEqual(len(list(page.iter(f"{SVG}pattern"))), 1)

    def marked(self, name):
        page = self.parsed(name)
        rows = [row for row in page.iter(f"{HTML}tr") if row.get("class") == "marked"]
        return verdict_of(page), [text_of(cell) for row in rows for cell in row]

    def test_a_refused_level(self):
        said, row = self.marked("refused level")
        self.assertRegex(said, r"levels.txt line 3: frequency 340 is not above 350 before it \(refusal 4, entry 2\)")
        self.assertEqual(row, ["\u25b8 2", "3", "340", "160", "\u25c2 refused"])

    def test_a_refused_job(self):
        said, row = self.marked("refused job")
        self.assertRegex(said, r"jobs.txt line 14: release 120 is not before deadline 120 \(refusal 9, entry 12\)")
        self.assertEqual(row, ["\u25b8 12", "14", "120", "120", "100", "\u25c2 refused"])
        shown = [row[0] for row in rows_of(self.parsed("refused job"), "refused-table")]
        self.assertEqual([shown[0], shown[-1], len(shown)], ["7", "17", 11])

    def test_a_refused_job_in_bytes(self):
        _, row = self.marked("refused in bytes")
        self.assertEqual(row, ["\u25b8 0", "5", "5", "1", "\u25c2 refused"])

    def test_tables_that_are_missing_or_cut(self):
        for name, words in (
            ("no level list", "No such file or directory, so it counts as empty: 0 bytes"),
            ("no job list", "No such file or directory, so it counts as empty: 0 bytes"),
            ("short bytes", "3 bytes, but levels number 2, which takes 10"),
        ):
            page = self.parsed(name)
            self.assertIn(words, verdict_of(page))
            self.assertIsNone(rows_of(page, "refused-table"))
            self.assertEqual(len(rows_of(page, "source-table")), 2)

    def test_text_that_is_no_table(self):
        self.assertIn("jobs.txt line 1: cycles '<script>' is not a whole number", verdict_of(self.parsed("no text")))
        self.assertIn("no job list, no task list and no level list", verdict_of(self.parsed("nothing")))

    def test_no_jobs(self):
        for name in ("no jobs", "empty"):
            page = self.parsed(name)
            self.assertIn("The job list is empty", verdict_of(page))
            self.assertEqual(list(page.iter(f"{SVG}svg")), [])
            self.assertTrue(rows_of(page, "level-table"))


class Pictures(WithSamples):
    """Pictures that stand by themselves."""

    def guard_round(self):
        site, planned = outcome_of(os.path.join(EXAMPLES, "guard-round"))
        entries = entries_of(site.data(tables.JOBS), tables.JOBS)
        time, levels = scale(entries, planned.spans), site.data(tables.LEVELS)
        return time, entries, figures.intervals(levels, planned), figures.level_list(levels)

    def test_each_is_a_document(self):
        time, entries, intervals, levels = self.guard_round()
        for svg in (
            pictures.jobs(time, entries, intervals),
            pictures.clock(time, intervals, levels),
            pictures.load(time, intervals),
        ):
            self.assertEqual(ElementTree.fromstring(svg).tag, f"{SVG}svg")

    def test_the_picture_in_the_readme(self):
        time, entries, intervals, _ = self.guard_round()
        svg = pictures.jobs(time, entries, intervals) + "\n"
        if os.environ.get("WRITE_PICTURE"):
            with open(PICTURE, "w", encoding="utf-8") as file:
                file.write(svg)
        with open(PICTURE, encoding="utf-8") as file:
            same = file.read() == svg
        advice = "WRITE_PICTURE=1 tests/report/run writes it anew"
        self.assertTrue(same, f"docs/guard-round-jobs.svg is not what the code makes now: {advice}")

    def test_jobs_in_parts(self):
        page = self.parsed("large")
        labels = [text_of(text) for text in page.iter(f"{SVG}text") if re.fullmatch(r"job \d+", text_of(text))]
        self.assertEqual(labels, [f"job {job}" for job in range(64)])
        # A printed page is about so high.
        self.assertLess(max(int(svg.get("height")) for svg in page.iter(f"{SVG}svg")), 650)
