"""The scale of time that the pictures of a report share, and its axis."""

from bisect import bisect_right
from typing import NamedTuple

from .drawing import FRAME, GRID, MARGIN, MUTED, WIDTH, width_of
from .wording import thousands

AXIS = 26  # the height of the axis with its labels
NAMES = 76  # the width of the names of rows, left of the picture

LEAST_WIDTH = 4.0  # what the shortest interval has to get where all have one scale
WIDENED = 16.0  # what it gets otherwise, or half of an equal share where that is less
LABEL_SIZE = 11
LABEL_ROOM = 8  # between two labels


class Timeline(NamedTuple):
    """Where each time stands. Inside an interval the scale is even."""

    bounds: list  # the times that bound the intervals
    places: list  # where each of them stands
    to_scale: bool  # whether the scale is the same in all intervals
    handovers: tuple = ()  # the marks among the bounds

    @property
    def left(self):
        return self.places[0]

    @property
    def right(self):
        return self.places[-1]

    def at(self, time):
        interval = min(bisect_right(self.bounds, time), len(self.bounds) - 1) - 1
        start, end = self.bounds[interval : interval + 2]
        left, right = self.places[interval : interval + 2]
        return left + (right - left) * float((time - start) / (end - start))

    def labels(self, wanted=()):
        """The bounds that get a label, so that no two labels touch: the first and the last, those that are wanted, the
        handovers, then as many others as there is room for."""
        kept = []
        for bound in (self.bounds[0], self.bounds[-1], *wanted, *self.handovers, *self.bounds):
            if all(self.apart(bound, other) for other in kept):
                kept.append(bound)
        return sorted(kept)

    def apart(self, one, other):
        room = (label_width(one) + label_width(other)) / 2 + LABEL_ROOM
        return abs(self.at(one) - self.at(other)) >= room


def label_width(time):
    return width_of(thousands(time), LABEL_SIZE)


def timeline(bounds, left, width):
    """The scale for these bounds. Where the shortest interval would be too narrow, each interval gets a part of its width
    for its length and an equal part for itself: as little of the second as the shortest one needs."""
    lengths = [end - start for start, end in zip(bounds, bounds[1:])]
    count, whole, shortest = len(lengths), bounds[-1] - bounds[0], min(lengths)
    even = 0.0
    if width * shortest / whole < LEAST_WIDTH:
        wanted = min(WIDENED / width, 0.5 / count)
        even = (wanted - shortest / whole) / (1 / count - shortest / whole)
    places = [left]
    for length in lengths:
        places.append(places[-1] + width * (even / count + (1 - even) * length / whole))
    return Timeline(bounds, places, even == 0)


def scale(jobs, spans, marks=()):
    """The scale of all pictures for these jobs, with from and to of each interval. On the left it leaves room for the jobs'
    cycles beside their names, on the right for half of the last label. Of the marks those between the first and the last
    bound are bounds themselves, and handovers in the pictures."""
    left = NAMES + max(width_of(thousands(cycles), LABEL_SIZE) for _, _, cycles in jobs)
    bounds = [spans[0][0], *(end for _, end in spans)]
    time = timeline(bounds, left, WIDTH - left - label_width(bounds[-1]) / 2 - MARGIN)
    return time._replace(handovers=tuple(mark for mark in marks if mark in bounds[1:-1]))


def draw_grid(drawing, time, top, bottom):
    """A thin line at each bound of an interval."""
    path = "".join(f"M{place:.2f} {top}V{bottom}" for place in time.places)
    drawing.add("path", d=path, stroke=GRID, stroke_width=1, fill="none")


def draw_labels(drawing, time, y, wanted=()):
    """A row of labels of time, with its base line at y."""
    for bound in time.labels(wanted):
        drawing.text(time.at(bound), y, thousands(bound), text_anchor="middle", font_size=LABEL_SIZE, fill=MUTED)


def draw_axis(drawing, time, y, wanted=()):
    """The axis of time under a picture, with its labels."""
    drawing.line(time.left, y, time.right, y, stroke=FRAME)
    path = "".join(f"M{time.at(bound):.2f} {y}v5" for bound in time.labels(wanted))
    drawing.add("path", d=path, stroke=FRAME, fill="none")
    draw_labels(drawing, time, y + 18, wanted)
    drawing.text(MARGIN, y + 18, "tick", fill=MUTED)
