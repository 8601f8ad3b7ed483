"""The tables of a report."""

from typing import NamedTuple

from .. import tables
from ..reasons import listed
from ..tables import entries_of
from .markup import element
from .wording import counted, mixed, percent, signed, thousands

NOTHING = "\u2013"
SHORT = 12  # a table of at most so many rows is kept on one page in print
AROUND = 5  # so many entries are shown before and after a refused one


class Column(NamedTuple):
    name: str
    look: str = None  # as the style has it; without one it is a number


def numbers(*names):
    return [Column(name) for name in names]


def words(*names):
    return [Column(name, "words") for name in names]


def long_words(*names):
    """Columns of words that may break."""
    return [Column(name, "words long") for name in names]


def cell(kind, value, column, **attributes):
    shown = thousands(value) if isinstance(value, int) else value
    return element(kind, shown, class_=column.look, **attributes)


def table(name, caption, columns, rows, marked=None):
    """A table in a box of its own that scrolls where it must. The first cell of a row is its head. The row whose number
    is marked stands out."""
    head = element("tr", *(cell("th", column.name, column, scope="col") for column in columns))
    body = []
    for number, row in enumerate(rows):
        cells = [cell("th", row[0], columns[0], scope="row")]
        cells += [cell("td", value, column) for value, column in zip(row[1:], columns[1:])]
        body.append(element("tr", *cells, class_="marked" if number == marked else None))
    return element(
        "div",
        element(
            "table",
            element("caption", element("span", caption), id=f"{name}-caption"),
            element("thead", head),
            element("tbody", *body),
        ),
        class_="scroll table short" if len(rows) <= SHORT else "scroll table",
        role="region",
        tabindex=0,
        aria_labelledby=f"{name}-caption",
    )


def origin_column(source):
    """The column that says where an entry stands: its task, where it was laid out, or its line, where the table is text."""
    if source.tasks is not None:
        return numbers("Task")
    return numbers("Line") if source.lines is not None else []


def origin_cell(source, entry):
    if source.tasks is not None:
        return [source.tasks[entry]]
    return [source.lines[entry]] if source.lines is not None else []


def interval_table(intervals):
    columns = numbers("Interval", "From", "To", "Ticks", "Load", "Capacity", "%", "Band")
    columns += numbers("Upper frequency", "Upper ticks", "Lower frequency", "Lower ticks", "Price")
    rows = [
        [
            interval.number,
            interval.start,
            interval.end,
            interval.ticks,
            interval.load,
            interval.capacity,
            percent(interval.load, interval.capacity),
            interval.setting.band or NOTHING,
            interval.upper or NOTHING,
            mixed(interval.upper_ticks) if interval.upper else NOTHING,
            (interval.lower or "idle") if interval.lower_ticks else NOTHING,
            mixed(interval.lower_ticks) if interval.lower_ticks else NOTHING,
            interval.price,
        ]
        for interval in intervals
    ]
    caption = (
        "Load and capacity are in cycles; the capacity is what the top frequency gives. The clock is on the upper "
        "frequency first, for so many ticks, then on the lower one. Percentages are rounded away from 100."
    )
    return table("interval-table", caption, columns, rows)


def step_table(steps, intervals):
    rows = [
        [number, interval, intervals[interval].start, intervals[interval].end, job, cycles]
        for number, (interval, job, cycles) in enumerate(steps)
    ]
    caption = "Each step is the cycles of one job in one interval. The jobs of an interval run in order of number."
    columns = numbers("Step", "Interval", "From", "To", "Job", "Cycles")
    return table("step-table", caption, columns, rows)


def window_table(windows):
    columns = numbers("Rank", "From", "To", "Capacity", "Need", "Spare", "% full") + long_words("Own jobs")
    rows = [
        [
            place,
            window.start,
            window.end,
            window.capacity,
            window.need,
            signed(window.spare),
            percent(window.need, window.capacity),
            listed(window.inside),
        ]
        for place, window in enumerate(windows, start=1)
    ]
    caption = (
        "From a release to a deadline, those with the least spare first. A window's own jobs are those that lie inside it; "
        "spare is the cycles that the top frequency gives there beyond their need."
    )
    return table("window-table", caption, columns, rows)


def room_table(source, entries, rooms):
    """The jobs with their room, the nearest to trouble first. What parameters have altered stands there as it was given too."""
    names, given = source.altered_columns(tables.JOBS)
    columns = numbers("Job") + origin_column(source) + numbers("Release", "Deadline", "Cycles", *given_names(names), "Room")
    rows = [[job, *origin_cell(source, job), *entries[job], *given[job], room] for job, room in rooms]
    return table("room-table", "The smallest room first; equal ones by job number.", columns, rows)


def job_table(source, entries, intervals):
    """The job list and, where there is a plan, in which intervals each job runs. What parameters have altered stands there as it
    was given too."""
    names, given = source.altered_columns(tables.JOBS)
    columns = numbers("Job") + origin_column(source) + numbers("Release", "Deadline", "Ticks", "Cycles", *given_names(names))
    if intervals:
        columns += long_words("Runs as interval: cycles")
    rows = []
    for job, (release, deadline, cycles) in enumerate(entries):
        row = [job, *origin_cell(source, job), release, deadline, deadline - release, cycles, *given[job]]
        if intervals:
            row.append(runs_of(job, intervals))
        rows.append(row)
    return table("job-table", file_words(source, tables.JOBS), columns, rows)


def given_names(names):
    """The names of columns that have what was given beside what parameters made of it."""
    return [f"Given {name}" for name in names]


def runs_of(job, intervals):
    """In which intervals a job runs. A line never breaks between an interval and its cycles."""
    runs = [(interval.number, interval.shares[job]) for interval in intervals if interval.shares[job]]
    return "; ".join(f"{number}:\u00a0{thousands(cycles)}" for number, cycles in runs)


def mark_table(source, effects):
    """The mark list, with what each mark does."""
    columns = numbers("Mark") + origin_column(source) + numbers("Tick") + long_words("Effect")
    entries = enumerate(entries_of(source.data, tables.MARKS))
    rows = [[number, *origin_cell(source, number), tick, effects[number]] for number, (tick,) in entries]
    caption = file_words(source, tables.MARKS) + (
        " At each mark there is a handover: readers are docked, and reload their plan. A mark strictly between the earliest "
        "release and the latest deadline bounds intervals as these do. The least energy is the same without marks."
    )
    return table("mark-table", caption, columns, rows)


def task_table(source, jobs):
    """The task list, with the jobs that were laid out from each task."""
    columns = numbers("Task") + origin_column(source) + numbers("Phase", "Period", "Deadline", "Cycles")
    columns += long_words("Jobs of a round")
    entries = entries_of(source.data, tables.TASKS)
    rows = []
    for number, entry in enumerate(entries):
        own = [job for job, task in enumerate(jobs.tasks) if task == number]
        rows.append([number, *origin_cell(source, number), *entry, listed(own)])
    caption = file_words(source, tables.TASKS) + (
        " In each period a task releases a job at its phase; its deadline counts from there."
    )
    return table("task-table", caption, columns, rows)


def own_job_table(source, entries, inside):
    names, given = source.altered_columns(tables.JOBS)
    columns = numbers("Job") + origin_column(source) + numbers("Release", "Deadline", "Cycles", *given_names(names))
    rows = [[job, *origin_cell(source, job), *entries[job], *given[job]] for job in inside]
    caption = f"The {counted(len(inside), 'job')} inside the overfull window, from {source.path}."
    return table("own-job-table", caption, columns, rows)


def level_table(source, levels, idle_power):
    columns = numbers("Level") + origin_column(source) + numbers("Frequency", "Voltage", "Band", "Price of a cycle")
    columns += long_words("Use")
    rows = []
    if has_idle_entry(source):
        use = "idles, and draws " + (f"{thousands(idle_power)} in each tick" if idle_power else "nothing")
        rows.append(["idle", *origin_cell(source, 0), 0, NOTHING, NOTHING, NOTHING, use])
    for number, level in enumerate(levels):
        row = [number, *origin_cell(source, level.entry), level.frequency, f"{level.voltage / 100:.2f} V"]
        if level.works:
            row += [level.band, mixed(level.price), "works"]
        else:
            row += [NOTHING, NOTHING, "never used: a mix of other levels costs no more"]
        rows.append(row)
    rows += shut_out_rows(source, len(rows), len(levels))
    beyond = " beyond what idling draws" if idle_power else ""
    caption = file_words(source, tables.LEVELS) + (
        " Frequencies are in cycles per tick. A band goes from the level below that works, or from idling, up to this "
        f"level; a cycle in it costs its price{beyond}."
    )
    return table("level-table", caption, columns, rows)


def shut_out_rows(source, entries, running):
    """The levels behind those that are allowed, which are so many entries with so many running levels among them."""
    given = list(enumerate(tables.entries_of(source.file_data(), tables.LEVELS)))[entries:]
    use = "not allowed: above the highest level"
    return [
        [number, *origin_cell(source, entry), frequency, f"{voltage / 100:.2f} V", NOTHING, NOTHING, use]
        for number, (entry, (frequency, voltage)) in enumerate(given, start=running)
    ]


def has_idle_entry(source):
    return tables.has_idle_entry(tables.LEVELS, entries_of(source.data, tables.LEVELS))


def refused_table(source, table_kind, entries, refused):
    """The entries around a refused one. After an idle entry a level does not have its entry's number."""
    first, end = max(refused - AROUND, 0), min(refused + AROUND + 1, len(entries))
    idle = tables.has_idle_entry(table_kind, entries)
    columns = numbers("Entry" if idle else table_kind.entry.capitalize()) + origin_column(source)
    columns += numbers(*(name.capitalize() for name, _ in table_kind.columns())) + words("Verdict")
    rows = []
    for number in range(first, end):
        remark = "idle entry: draw in place of the voltage" if idle and number == 0 else ""
        sign, verdict = ("\u25b8 ", "\u25c2 refused") if number == refused else ("", remark)
        rows.append([f"{sign}{number}", *origin_cell(source, number), *entries[number], verdict])
    caption = f"Entries {first} to {end - 1} of {source.path}, which has {len(entries):,}."
    return table("refused-table", caption, columns, rows, marked=refused - first)


def source_table(site):
    """The files that a site was read from."""
    rows = []
    for kind, source in site.files().items():
        state = counted(len(source.file_data()), "byte") if source.lines is None else count_words(source, kind)
        if source.trouble:
            state = f"{source.trouble}: {'no marks' if kind is tables.MARKS else 'counts as empty'}"
        rows.append([kind.name.capitalize(), source.path, state])
    columns = words("Table") + long_words("File", "State")
    return table("source-table", "The files that were read.", columns, rows)


def file_words(source, kind):
    return f"{count_words(source, kind)}, from {source.path}."


def count_words(source, kind):
    """How many entries the table of a file has. The idle entry is no level."""
    entries = entries_of(source.file_data(), kind)
    if tables.has_idle_entry(kind, entries):
        return f"{counted(len(entries) - 1, kind.entry)} and the idle entry"
    return counted(len(entries), kind.entry)
