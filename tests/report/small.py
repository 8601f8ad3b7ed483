"""Tests of the parts that need no site: markup, words and the scale of time."""

import unittest
from fractions import Fraction
from xml.etree import ElementTree

from ramyearly.report import drawing, markup, wording
from ramyearly.report.timeline import label_width, timeline

from samples import crowded_jobs, many_jobs


class Markup(unittest.TestCase):
    def test_everything_is_escaped(self):
        text = "".join(map(chr, range(0x300))) + "\u202e\u2066\ud800\udcff\ufffe\uffff\U0001f600"
        parsed = ElementTree.fromstring(markup.element("p", text, title=text))
        self.assertEqual(parsed.text, parsed.get("title"))
        for kept in "<>&\"'~\u00e9\U0001f600":
            self.assertIn(kept, parsed.text)
        for lost in "\0\x1b\x7f\x85\u202e\u2066\ud800\ufffe":
            self.assertNotIn(lost, parsed.text)

    def test_elements(self):
        outer = markup.element("p", markup.element("b", 1), "<", class_="x", data_y=1.50, z=None)
        self.assertEqual(outer, '<p class="x" data-y="1.5"><b>1</b>&lt;</p>')
        self.assertEqual(markup.element("meta", charset="utf-8"), '<meta charset="utf-8"/>')
        self.assertEqual(markup.element("td"), "<td></td>")


class Wording(unittest.TestCase):
    def test_mixed_numbers(self):
        for value, said in ((0, "0"), (Fraction(3, 2), "1 1/2"), (Fraction(2, 4), "1/2"), (1200, "1,200")):
            self.assertEqual(wording.mixed(value), said)

    def test_percentages_are_rounded_away_from_a_hundred(self):
        cases = (0, 10, "0"), (1, 10**6, "0.1"), (1, 2, "50"), (1, 3, "33.3"), (999_999, 10**6, "99.9")
        for part, whole, said in (*cases, (10, 10, "100"), (1_000_001, 10**6, "100.1"), (5, 4, "125"), (40, 1, "4,000")):
            self.assertEqual(wording.percent(part, whole), said)
        for part, whole, said in ((1, 1000, "1"), (2, 3, "66"), (999, 1000, "99"), (1001, 1000, "101"), (0, 3, "0")):
            self.assertEqual(wording.percent(part, whole, digits=0), said)

    def test_counts(self):
        self.assertEqual([wording.counted(number, "job") for number in (0, 1, 2000)], ["0 jobs", "1 job", "2,000 jobs"])
        self.assertEqual(wording.signed(-2500), "\u22122,500")


def bounds_of(jobs):
    return sorted({time for release, deadline, _ in jobs for time in (release, deadline)})


class Timelines(unittest.TestCase):
    def test_to_scale_where_the_shortest_can_be_seen(self):
        time = timeline([10, 20, 110], 50, 1000)
        self.assertTrue(time.to_scale)
        self.assertEqual([time.at(moment) for moment in (10, 20, 60, Fraction(121, 2), 110)], [50, 150, 550, 555, 1050])

    def test_every_interval_is_seen(self):
        short = [0, 1, 1_000_000]
        for bounds in (short, bounds_of(many_jobs()), bounds_of(crowded_jobs())):
            time = timeline(bounds, 50, 1000)
            widths = [right - left for left, right in zip(time.places, time.places[1:])]
            self.assertGreaterEqual(min(widths), 1000 / 2 / len(widths) - 0.001 if len(widths) > 31 else 15.999)
            self.assertAlmostEqual(time.right, 1050)
        self.assertFalse(timeline(short, 50, 1000).to_scale)

    def test_labels_keep_apart(self):
        for bounds in (bounds_of(many_jobs()), bounds_of(crowded_jobs()), [999_998, 999_999], [0, 1, 1_000_000]):
            time = timeline(bounds, 50, 1000)
            labels = time.labels(wanted=[time.bounds[1]])
            self.assertEqual([labels[0], labels[-1]], [time.bounds[0], time.bounds[-1]])
            for one, other in zip(labels, labels[1:]):
                self.assertGreater(time.at(other) - time.at(one), (label_width(one) + label_width(other)) / 2)


class Contrast(unittest.TestCase):
    """Text and what stands behind it."""

    def test_text_can_be_read(self):
        for text, ground in (
            (drawing.INK, "#ffffff"),
            (drawing.INK, drawing.TINT),
            (drawing.MUTED, "#ffffff"),
            (drawing.ALARM, "#ffffff"),
            (drawing.ALARM, "#f3f6f8"),
            (drawing.HANDOVER, "#ffffff"),
        ):
            self.assertGreaterEqual(contrast(text, ground), 4.5)


def light(colour):
    """The relative luminance of a colour, as the guidelines for web content define it."""
    parts = [int(colour[at : at + 2], 16) / 255 for at in (1, 3, 5)]
    red, green, blue = (part / 12.92 if part <= 0.04045 else ((part + 0.055) / 1.055) ** 2.4 for part in parts)
    return 0.2126 * red + 0.7152 * green + 0.0722 * blue


def contrast(one, other):
    darker, lighter = sorted((light(one), light(other)))
    return (lighter + 0.05) / (darker + 0.05)
