"""The picture of the load of each interval against the top frequency, with band and price."""

from itertools import groupby

from . import handovers
from .drawing import FRAME, MIDDLE, MUTED, STRONG, Drawing, hint, width_of
from .timeline import AXIS, draw_axis, draw_grid
from .wording import from_to, percent, thousands

TOP = 6
HEIGHT = 120
STRIP = 18  # the height of the bands, and of the prices
LYING, STANDING = 18, 32  # the height of the percentages, which stand upright where they are many
SMALL = 9  # the size of those that stand


def load(time, intervals, name="load"):
    """A bar for each interval: its load against what the top frequency gives. Under it band and price."""
    drawing = Drawing(
        name,
        "Load of each interval against the top frequency, with band and price",
        "A full bar is the top frequency all the time. Above each bar stands its load in percent of that; under it stand "
        "the band and the price. A full interval is filled dark." + handovers.words_for(time),
    )
    lying = all(fits(time, interval) for interval in intervals)
    top = TOP + handovers.row(time) + (LYING if lying else STANDING)
    bottom = top + HEIGHT
    draw_shares(drawing, time, top, bottom)
    draw_grid(drawing, time, top, bottom)
    for interval in intervals:
        draw_bar(drawing, time, interval, top, bottom)
        draw_percent(drawing, time, interval, top - 7, lying)
    handovers.draw(drawing, time, TOP + 5, bottom)
    draw_axis(drawing, time, bottom)
    drawing.text(time.left - 8, top - 10, "load %", text_anchor="end", font_weight="bold")
    below = bottom + AXIS
    draw_strip(drawing, time, intervals, "band", [interval.setting.band or "\u2013" for interval in intervals], below)
    draw_strip(drawing, time, intervals, "price", [interval.price for interval in intervals], below + STRIP)
    return drawing.svg(below + 2 * STRIP + 6)


def draw_shares(drawing, time, top, bottom):
    """Lines across at nothing, a half and all of the top frequency."""
    for y, said in ((bottom, "0"), ((top + bottom) / 2, "50"), (top, "100")):
        drawing.line(time.left, y, time.right, y, stroke_dasharray="6 3", stroke=FRAME, stroke_width=0.8)
        drawing.text(time.left - 8, y + 4, said, text_anchor="end", fill=MUTED)


def draw_bar(drawing, time, interval, top, bottom):
    left, right = time.at(interval.start), time.at(interval.end)
    filled = HEIGHT * interval.load / interval.capacity
    colour = STRONG if interval.load == interval.capacity else MIDDLE
    edge = min(3.0, (right - left) / 6)
    drawing.box(left + edge, bottom - filled, right - left - 2 * edge, filled, fill=colour, stroke=STRONG)
    said = (
        f"interval {interval.number} ({from_to(interval.start, interval.end)}): load {thousands(interval.load)} of "
        f"{thousands(interval.capacity)}, {percent(interval.load, interval.capacity)} %, "
        f"band {interval.setting.band}, price {interval.price}"
    )
    drawing.box(left, top, right - left, HEIGHT, hint(said), fill="#ffffff", fill_opacity=0)


def share(interval):
    return percent(interval.load, interval.capacity, digits=0)


def fits(time, interval):
    """Whether an interval's percentage fits above it."""
    return width_of(share(interval), 11) + 4 <= time.at(interval.end) - time.at(interval.start)


def draw_percent(drawing, time, interval, y, lying):
    """The percentage above a bar: all of them lie, or all stand and are left out where the bar is too narrow."""
    left, right = time.at(interval.start), time.at(interval.end)
    middle = (left + right) / 2
    if lying:
        drawing.text(middle, y - 3, share(interval), text_anchor="middle")
    elif right - left >= SMALL:
        # The middle of a figure is a third of its size above its base line.
        x = middle + SMALL / 3
        drawing.text(x, y, share(interval), font_size=SMALL, transform=f"rotate(-90 {x:.2f} {y})")


def draw_strip(drawing, time, intervals, name, values, top):
    """A number for each interval. Neighbours of the same number share one field."""
    drawing.text(time.left - 8, top + 13, name, text_anchor="end", font_weight="bold")
    for value, group in groupby(zip(values, intervals), key=lambda pair: pair[0]):
        members = [interval for _, interval in group]
        left, right = time.at(members[0].start), time.at(members[-1].end)
        drawing.box(left, top, right - left, STRIP, fill="none", stroke=FRAME, stroke_width=0.8)
        drawing.fitting_text(left, top + 13, right - left, str(value))
