"""Handovers in a report: the marks of a site, what each of them does, and their lines in the pictures.

Which marks bound intervals is the archive's answer: they are among the ends of its price list.
"""

from .. import tables
from ..reasons import listed
from ..tables import entries_of
from .drawing import HANDOVER, hint, width_of
from .timeline import LABEL_ROOM, LABEL_SIZE
from .wording import thousands

ROW = 14  # the height of the words above the lines
WORD = "handover"


def marks_of(site):
    """The ticks of a site's marks."""
    return [tick for (tick,) in entries_of(site.data(tables.MARKS), tables.MARKS)]


# Words.


def effect(mark, entries, time=None):
    """What a mark does. Without jobs there is no scale of time."""
    if time is None:
        return "no effect: there are no jobs"
    if mark not in time.handovers:
        first, last = time.bounds[0], time.bounds[-1]
        if mark <= first:
            return f"no effect: not after the earliest release, {thousands(first)}"
        return f"no effect: not before the latest deadline, {thousands(last)}"
    releases, deadlines, _ = zip(*entries)
    there = [name for name, times in (("a release", releases), ("a deadline", deadlines)) if mark in times]
    if there:
        return f"cuts nothing more: {' and '.join(there)} {'is' if len(there) == 1 else 'are'} there already"
    return "cuts: an interval ends here, and the next one begins"


def mark_facts(site, time):
    """The handovers of a site with marks, and the marks that are none."""
    marks = marks_of(site)
    if not marks:
        return []
    outside = [mark for mark in marks if mark not in time.handovers]
    remarks = [f"at {named(time.handovers)}"] if time.handovers else []
    if outside:
        remarks.append(f"{named(outside)} {'has' if len(outside) == 1 else 'have'} no effect")
    return [("Handovers", len(time.handovers), "; ".join(remarks))]


def named(marks):
    return listed(map(thousands, marks))


def words_for(time):
    """What is said under a picture with handovers, and in its description."""
    if not time.handovers:
        return ""
    return " A dashed line from top to bottom is a handover: readers are docked there, and reload their plan."


# Lines.


def row(time):
    """The height of a row for the words above the lines, where there are any."""
    return ROW if time.handovers else 0


def draw(drawing, time, y, bottom):
    """A dashed line at each handover, down to the bottom. Its word stands above it, with its base line at y, where no other
    word is in the way."""
    half, taken = width_of(WORD, LABEL_SIZE) / 2, 0
    for mark in time.handovers:
        place = time.at(mark)
        said = hint(f"{WORD} at {thousands(mark)}")
        ends = {"x1": place, "y1": y + 3, "x2": place, "y2": bottom}
        drawing.add("line", said, **ends, stroke=HANDOVER, stroke_width=1.2, stroke_dasharray="5 3")
        middle = min(max(place, time.left + half), time.right - half)
        if middle - half >= taken:
            drawing.text(middle, y, WORD, text_anchor="middle", font_size=LABEL_SIZE, fill=HANDOVER)
            taken = middle + half + LABEL_ROOM
