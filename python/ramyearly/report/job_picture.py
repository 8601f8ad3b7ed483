"""The picture of the jobs: their windows, and the cycles that run in each interval."""

from . import handovers
from .drawing import ALARM, FRAME, INK, MARGIN, MUTED, STRONG, TINT, Drawing, hint, width_of
from .timeline import AXIS, draw_axis, draw_grid, draw_labels
from .wording import counted, from_to, thousands

ROW = 23  # the height of a job
BAR = 19
STRIP = 4  # the height of the strip that shows when a job runs
HEAD = 20  # the height of a row of words above the jobs
LABELS_ABOVE = 12  # with more rows than these the labels of time stand above them too


def jobs(time, entries, intervals=(), overfull=None, rows=None, name="jobs"):
    """A row for each job, or for those in rows: its window and, in each interval of a plan in which it runs, the cycles.
    Without a plan an overfull window is marked."""
    rows = range(len(entries)) if rows is None else rows
    title, description = job_words(entries, rows, overfull)
    drawing = Drawing(name, title, description + handovers.words_for(time))
    wanted = (overfull.start, overfull.end) if overfull else ()
    top = HEAD
    if len(rows) > LABELS_ABOVE:
        draw_labels(drawing, time, 14, wanted)
        top += HEAD
    said_at = top - 7
    if overfull and time.handovers:
        # The words of the overfull window stand above those of the handovers.
        top += HEAD
    bottom = top + ROW * len(rows)
    drawing.text(MARGIN, top - 6, "job", fill=MUTED)
    drawing.text(time.left - 8, top - 6, "cycles", text_anchor="end", fill=MUTED)
    if overfull:
        draw_overfull(drawing, time, overfull, top, bottom, said_at)
    draw_grid(drawing, time, top, bottom)
    for row, job in enumerate(rows):
        draw_row(drawing, time, job, entries[job], top + ROW * row, overfull)
    for interval in intervals:
        for run in interval.runs():
            if run.job in rows:
                draw_run(drawing, time, interval, run, top + ROW * rows.index(run.job))
    handovers.draw(drawing, time, top - 6, bottom)
    draw_axis(drawing, time, bottom, wanted)
    return drawing.svg(bottom + AXIS)


def job_words(entries, rows, overfull):
    """The title and the description of the picture of the jobs."""
    part = "" if len(rows) == len(entries) else f", {rows[0]} to {rows[-1]}"
    title = f"Jobs{part}: windows and the cycles that run in each interval"
    description = (
        "A row for each job, with its cycles in all. The outlined bar is its window from release to deadline. A shaded "
        "cell is an interval in which it runs, with its cycles there; the dark strip in it is when it runs."
    )
    if overfull:
        title = f"Jobs{part}: windows, and the window that is overfull"
        description = (
            "A row for each job, with its cycles. The outlined bar is its window from release to deadline. The hatched "
            f"stretch from {from_to(overfull.start, overfull.end)} is overfull; its own jobs have a thick outline."
        )
    return title, description


def draw_row(drawing, time, job, entry, y, overfull):
    """A job's number, its cycles and its window. The own jobs of an overfull window stand out."""
    release, deadline, cycles = entry
    own = overfull is not None and job in overfull.inside
    left, right, middle = time.at(release), time.at(deadline), y + ROW / 2
    weight, sign = ("bold", "\u25b8 ") if own else (None, "")
    drawing.text(MARGIN, middle + 4, f"{sign}job {job}", font_weight=weight)
    drawing.text(time.left - 8, middle + 4, thousands(cycles), text_anchor="end", font_weight=weight)
    drawing.line(time.left, middle, left, middle, stroke_dasharray="1 3", stroke=FRAME)
    said = f"job {job}: {from_to(release, deadline)}, {counted(cycles, 'cycle')}"
    outline = {"stroke": INK, "stroke_width": 3} if own else {"stroke": FRAME, "stroke_width": 1.2}
    drawing.box(left, y + (ROW - BAR) / 2, right - left, BAR, hint(said), fill="#ffffff", **outline)


def draw_run(drawing, time, interval, run, y):
    """An interval in which a job runs, inside its window, with the cycles and the time that they take."""
    left, right, top = time.at(interval.start), time.at(interval.end), y + (ROW - BAR) / 2
    said = (
        f"job {run.job} in interval {interval.number} ({from_to(interval.start, interval.end)}): "
        f"{counted(run.cycles, 'cycle')}"
    )
    drawing.box(left, top, right - left, BAR, hint(said), fill=TINT, stroke=FRAME, stroke_width=0.6)
    start, end = time.at(run.start), time.at(run.end)
    # A run that is too short to see gets the width of a thin line.
    drawing.box(start, top + BAR - STRIP, max(end - start, 1.2), STRIP, fill=STRONG, pointer_events="none")
    drawing.fitting_text(left, top + 11.5, right - left, thousands(run.cycles), pointer_events="none")


def draw_overfull(drawing, time, overfull, top, bottom, said_at):
    """The overfull window behind the rows, with its label above them, whose base line is at said_at."""
    left, right = time.at(overfull.start), time.at(overfull.end)
    hatching = drawing.hatching("#d9a5a1")
    drawing.box(left, top - 2, right - left, bottom - top + 2, fill=hatching, stroke=ALARM, stroke_width=1.5)
    said = f"overfull: {from_to(overfull.start, overfull.end)}, {counted(-overfull.spare, 'cycle')} too many"
    half = width_of(said, 12) / 2
    middle = min(max((left + right) / 2, time.left + half), time.right - half)
    drawing.text(middle, said_at, said, text_anchor="middle", font_size=12, font_weight="bold", fill=ALARM)
