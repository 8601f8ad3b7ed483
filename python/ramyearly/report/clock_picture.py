"""The picture of the clock over time."""

from . import handovers
from .drawing import FRAME, STRONG, TINT, Drawing, hint
from .timeline import AXIS, draw_axis, draw_grid
from .wording import from_to, mixed, thousands

TOP = 10
HEIGHT = 170
LABELS_APART = 13


def clock(time, intervals, levels, name="clock"):
    """The frequency over time, with a line for each level."""
    top = TOP + handovers.row(time)
    bottom = top + HEIGHT
    highest = levels[-1].frequency
    drawing = Drawing(
        name,
        "The clock over time",
        "In each interval the clock is on the upper one of two neighbouring levels first, then on the lower one. "
        "The lines across are the levels, labelled with their frequencies in cycles per tick." + handovers.words_for(time),
    )

    def height(frequency):
        return bottom - HEIGHT * frequency / highest

    path = clock_path(time, intervals, height)
    drawing.add("path", d=f"{path}V{bottom}H{time.left:.2f}Z", fill=TINT)
    draw_grid(drawing, time, top, bottom)
    draw_level_lines(drawing, time, levels, height)
    drawing.add("path", d=path, fill="none", stroke=STRONG, stroke_width=2)
    for interval in intervals:
        left, right = time.at(interval.start), time.at(interval.end)
        said = f"interval {interval.number} ({from_to(interval.start, interval.end)}): {clock_words(interval)}"
        drawing.box(left, top, right - left, HEIGHT, hint(said), fill="#ffffff", fill_opacity=0)
    handovers.draw(drawing, time, TOP, bottom)
    draw_axis(drawing, time, bottom)
    return drawing.svg(bottom + AXIS)


def stretches(interval):
    """From when to when the clock is on which frequency."""
    turn = interval.start + interval.upper_ticks
    both = ((interval.start, turn, interval.upper), (turn, interval.end, interval.lower))
    return [stretch for stretch in both if stretch[0] < stretch[1]]


def clock_words(interval):
    def said(start, end, frequency):
        ticks = end - start
        return f"{f'at {frequency}' if frequency else 'idle'} for {mixed(ticks)} tick{'' if ticks == 1 else 's'}"

    return ", then ".join(said(*stretch) for stretch in stretches(interval))


def clock_path(time, intervals, height):
    """The line of the clock: across at each frequency, and up or down between them."""
    path = ""
    for interval in intervals:
        for start, end, frequency in stretches(interval):
            y = height(frequency)
            path += f"V{y:.2f}" if path else f"M{time.at(start):.2f} {y:.2f}"
            path += f"H{time.at(end):.2f}"
    return path


def draw_level_lines(drawing, time, levels, height):
    """A line for each level with its frequency, and one for idling. A level that never works is in brackets."""
    lines = [(0, "idle", None)]
    for level in levels:
        said = thousands(level.frequency)
        lines.append((level.frequency, said if level.works else f"({said})", "6 3" if level.works else "1 4"))
    heights = [height(frequency) for frequency, _, _ in lines]
    for (_, said, dashes), y, label in zip(lines, heights, spread(heights)):
        if dashes:
            drawing.line(time.left, y, time.right, y, stroke=FRAME, stroke_width=0.8, stroke_dasharray=dashes)
        # From the label to its line, which may stand a little above or below it.
        path = f"M{time.left - 14:.2f} {label:.2f}L{time.left - 5:.2f} {y:.2f}H{time.left:.2f}"
        drawing.add("path", d=path, stroke=FRAME, fill="none")
        drawing.text(time.left - 17, label + 4, said, text_anchor="end")


def spread(heights):
    """Heights for labels that keep them apart, from the lowest up: each as near to its own as the labels below it and the
    room for those above it allow."""
    found = []
    for place, y in enumerate(heights):
        y = max(y, heights[-1] + LABELS_APART * (len(heights) - 1 - place))
        found.append(min(y, found[-1] - LABELS_APART) if found else y)
    return found
