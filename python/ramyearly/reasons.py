"""The reasons of the refusals of documents 01 and 02, in words.

The archive decides which refusal holds and at which place. What stands here only finds words for it: it looks up the
numbers that the refusal speaks of, and where a refusal has two reasons it says the one that these numbers show.
"""

from . import archive, tables
from .calls import interval_spans
from .tables import entries_of


def listed(numbers):
    """Numbers as words: 1, 2 and 3."""
    *first, last = map(str, numbers)
    return f"{', '.join(first)} and {last}" if first else last


def named_jobs(numbers):
    """Jobs as words: job 3, or jobs 0 and 2."""
    return f"{'job' if len(numbers) == 1 else 'jobs'} {listed(numbers)}"


def ticks(number):
    return f"{number} tick{'' if number == 1 else 's'}"


# Levels and jobs.


def level_entries(call):
    return entries_of(call.levels, tables.LEVELS)


def count_of_levels(call, place):
    count = tables.sizes_of(call.levels, tables.LEVELS)[0]
    whole = tables.length_fault(call.levels, tables.LEVELS) is None
    if whole and tables.has_idle_entry(tables.LEVELS, level_entries(call)):
        return f"{count} entries with the idle entry, but a table has 1 to 8 in all"
    return f"{count} levels, but a table has 1 to 8"


def level_and_before(call, place):
    """A level, and the one before it or None. The idle entry is passed over: the level after it is a first one."""
    entries = level_entries(call)
    return entries[place], (entries[place - 1] if place > tables.first_running(entries) else None)


def frequency(call, place):
    (value, _), before = level_and_before(call, place)
    if before and value <= before[0]:
        return f"frequency {value} is not above {before[0]} before it"
    return f"frequency {value} is not in range (1 to 1,000)"


def voltage(call, place):
    (_, value), before = level_and_before(call, place)
    if before and value < before[1]:
        return f"voltage {value} is below {before[1]} before it"
    return f"voltage {value} is not in range (1 to 500)"


def idle_entry_alone(call, place):
    return "the idle entry stands alone: no level follows it"


def idle_draw(call, place):
    (_, draw), (frequency, voltage), *_ = level_entries(call)
    idling = f"idling's power {1000 * draw} (1,000 x draw {draw})"
    running = f"{frequency * voltage * voltage} ({frequency} x {voltage} x {voltage})"
    return f"{idling} is not below the first running level's power {running}"


def count_of_jobs(call, place):
    return table_fault(call.jobs, tables.JOBS, 64)


def window(call, place):
    release, deadline, _ = entries_of(call.jobs, tables.JOBS)[place]
    if release >= deadline:
        return f"release {release} is not before deadline {deadline}"
    return f"deadline {deadline} is above 1,000,000"


def cycles(call, place):
    return cycles_out_of_range(entries_of(call.jobs, tables.JOBS)[place][2])


def cycles_out_of_range(value):
    return f"cycles {value} are not in range (1 to 1,000,000,000)"


def table_fault(data, table, most):
    """Why bytes are no table of at most so many entries, or None where the fault is in an entry."""
    if len(data) >= table.head():
        count = tables.sizes_of(data, table)[-1]
        if count > most:
            return f"{count} {table.sizes[-1]}, but a table has at most {most}"
    return tables.length_fault(data, table)


def too_short(call, place):
    return "a buffer is too short"


def list_too_short(call, place):
    return "a shares table or a list is too short"


# Marks.


def mark_table_fault(call):
    return table_fault(call.marks, tables.MARKS, 8)


def mark(call, place):
    fault = mark_table_fault(call)
    if fault:
        return fault
    (before,), (tick,) = entries_of(call.marks, tables.MARKS)[place - 1 : place + 1]
    return f"mark {tick} is not above {before} before it"


# Plans.


def steps_of(call):
    return tables.split_cells(entries_of(call.plan, tables.PLAN))


def intervals_of(call):
    return interval_spans(call.jobs, call.marks)


def number_of_intervals(call, place):
    count = tables.sizes_of(call.plan, tables.PLAN)[0]
    cut_by = "jobs" if call.marks == tables.NO_MARKS else "jobs and the marks"
    return f"{count} interval{'' if count == 1 else 's'}, but the {cut_by} make {len(intervals_of(call))}"


def cell(call, place):
    cells = [step[:2] for step in steps_of(call)]
    interval, job = cells[place]
    first = cells.index(cells[place])
    if first < place:
        return f"job {job} in interval {interval} stands in step {first} already"
    return f"job {job} is not open in interval {interval}"


def step_cycles(call, place):
    interval, job, value = steps_of(call)[place]
    if value == 0:
        return f"0 cycles of job {job} in interval {interval}"
    return f"{value} cycles of job {job} in interval {interval}, but the job has {entries_of(call.jobs, tables.JOBS)[job][2]}"


def sum_of_job(call, place):
    given = sum(value for _, job, value in steps_of(call) if job == place)
    return f"the plan gives job {place} {given} cycles, but it has {entries_of(call.jobs, tables.JOBS)[place][2]}"


def overloaded(call, place):
    """The archive says how much there may be: the spare of an interval without jobs."""
    start, end = intervals_of(call)[place]
    most = archive.spare(call.levels, tables.NO_JOBS, start, end).spare
    about = f"interval {place}, from {start} to {end}, has {load_of(call, place)} cycles"
    return f"{about}, but the top frequency gives {most} in {ticks(end - start)}"


def load_of(call, place):
    return sum(value for interval, _, value in steps_of(call) if interval == place)


# Price lists.


def price_list(call, place):
    fault = tables.length_fault(call.prices, tables.PRICES)
    wanted = tables.sizes_of(call.plan, tables.PLAN)[0]
    if len(call.prices) < tables.PRICES.head() or tables.sizes_of(call.prices, tables.PRICES)[0] == wanted:
        return fault
    return f"{tables.sizes_of(call.prices, tables.PRICES)[0]} intervals, but the plan has {wanted}"


def end_or_price(call, place):
    end, price = entries_of(call.prices, tables.PRICES)[place]
    _, true_end = intervals_of(call)[place]
    if end != true_end:
        return f"interval {place} ends at {true_end}, not at {end}"
    return f"price {price} of interval {place} is not the number of a band"


def price_and_load(call, place):
    start, end = intervals_of(call)[place]
    load = load_of(call, place)
    price = entries_of(call.prices, tables.PRICES)[place][1]
    band = archive.setting(call.levels, end - start, load).band
    beside = f"which is in band {band}" if band else "which wants price 1"
    return f"price {price} does not fit the load {load} of interval {place}, {beside}"


def dearer(call, place):
    interval, job, _ = steps_of(call)[place]
    price = entries_of(call.prices, tables.PRICES)[interval][1]
    return f"job {job} runs in interval {interval} at price {price}, but is open in one of a smaller price"


# Tasks.


def task_table_fault(call):
    return table_fault(call.tasks, tables.TASKS, 16)


def task(call, place):
    fault = task_table_fault(call)
    if fault:
        return fault
    phase, period, deadline, value = entries_of(call.tasks, tables.TASKS)[place]
    if period == 0 or deadline == 0:
        return f"the {'deadline' if period else 'period'} is 0"
    if phase + deadline > period:
        return f"phase {phase} + deadline {deadline} is above the period {period}"
    return cycles_out_of_range(value)


def first_tasks(call, count):
    """What the archive answers for the first tasks alone: the answer, and the job table."""
    entries = entries_of(call.tasks, tables.TASKS)[:count]
    return archive.rounds(tables.to_bytes(entries, tables.TASKS))


def multiple(call, place):
    periods = list(dict.fromkeys(period for _, period, _, _ in entries_of(call.tasks, tables.TASKS)[: place + 1]))
    about = f"the least common multiple of the periods {listed(periods)}" if len(periods) > 1 else f"period {periods[0]}"
    return f"{about} is above 1,000,000"


def count_of_rounds(call, place):
    answer, jobs = first_tasks(call, place)
    before = f"the tasks before it make {tables.sizes_of(jobs, tables.JOBS)[0]} in {ticks(answer.multiple)}"
    return f"with this task there are more than 64 jobs; {before}"


# Parameters.


def highest_level(call, place):
    count = tables.count_running(call.levels)
    return f"highest level {call.parameters.highest} is not in range (1 to {count}, the running levels of the table)"


def free_ticks(call, place):
    return f"free ticks {call.parameters.free} are not in range (0 to 1,000,000)"


def margin(call, place):
    return f"margin {call.parameters.margin} is not in range (0 to 100 percent)"


def parameter(call):
    """Which of the parameters 35 is about: the first that is out of range."""
    highest, free, _ = call.parameters
    if highest is not None and not 1 <= highest <= tables.count_running(call.levels):
        return "highest"
    return "free" if free > 1_000_000 else "margin"


def altered_job(call, place):
    release, deadline, cycles = entries_of(call.jobs, tables.JOBS)[place]
    _, free, percent = call.parameters
    if deadline <= release + free:
        less = f"deadline {deadline} less {ticks(free)} kept free is not after release {release}"
        return f"nothing is left of the window of job {place}: {less}"
    more = -(-cycles * percent // 100)  # rounded up
    return f"cycles {cycles} of job {place} with a margin of {percent} percent are {cycles + more}, above 1,000,000,000"


# Setting, spare and what touches a span.


def length(call, place):
    return f"length {call.length} is not in range (1 to 1,000,000)"


def load(call, place):
    return f"load {call.load} is more than the top frequency gives in {call.length} ticks"


def span(call, place):
    if call.start >= call.end:
        return f"start {call.start} is not before end {call.end}"
    return f"end {call.end} is above 1,000,000"


def length_of(table):
    """Words for a table whose length is wrong. The table is the field of that name in the call."""
    return lambda call, place: tables.length_fault(getattr(call, table.name), table)


# The entry that a refusal is about.


def at_place(call, place):
    return place


def no_entry(call, place):
    return None


def faulty_task(call, place):
    return None if task_table_fault(call) else place


def faulty_mark(call, place):
    """The first mark that is not above the one before it. The refusal names no place."""
    if mark_table_fault(call):
        return None
    marks = entries_of(call.marks, tables.MARKS)
    return next(entry for entry in range(1, len(marks)) if marks[entry] <= marks[entry - 1])


def task_that_gives(number):
    """The first task with which this refusal comes. The archive says which."""

    def find(call, place):
        counts = range(1, 1 + tables.sizes_of(call.tasks, tables.TASKS)[0])
        return next(count - 1 for count in counts if first_tasks(call, count)[0].number == number)

    return find


# For each refusal the table that it is about, its words, and the entry of that table.
REASONS = {
    1: (tables.LEVELS, length_of(tables.LEVELS), no_entry),
    2: (tables.LEVELS, count_of_levels, no_entry),
    3: (tables.LEVELS, length_of(tables.LEVELS), no_entry),
    4: (tables.LEVELS, frequency, at_place),
    5: (tables.LEVELS, voltage, at_place),
    6: (tables.JOBS, length_of(tables.JOBS), no_entry),
    7: (tables.JOBS, count_of_jobs, no_entry),
    8: (tables.JOBS, length_of(tables.JOBS), no_entry),
    9: (tables.JOBS, window, at_place),
    10: (tables.JOBS, cycles, at_place),
    12: (None, too_short, no_entry),
    13: (None, too_short, no_entry),
    14: (None, list_too_short, no_entry),
    15: (tables.PLAN, length_of(tables.PLAN), no_entry),
    16: (tables.PLAN, number_of_intervals, no_entry),
    17: (tables.PLAN, cell, at_place),
    18: (tables.PLAN, step_cycles, at_place),
    19: (tables.JOBS, sum_of_job, at_place),
    20: (tables.PLAN, overloaded, no_entry),
    21: (tables.PRICES, price_list, no_entry),
    22: (tables.PRICES, end_or_price, at_place),
    23: (tables.PRICES, price_and_load, at_place),
    24: (tables.PLAN, dearer, at_place),
    25: (None, length, no_entry),
    26: (None, load, no_entry),
    27: (None, span, no_entry),
    28: (tables.TASKS, task, faulty_task),
    29: (tables.TASKS, multiple, task_that_gives(29)),
    30: (tables.TASKS, count_of_rounds, task_that_gives(30)),
    31: (tables.LEVELS, idle_entry_alone, at_place),
    32: (tables.LEVELS, idle_draw, at_place),
    33: (None, span, no_entry),
    34: (tables.MARKS, mark, faulty_mark),
    36: (tables.JOBS, altered_job, at_place),
}
# The same for 35, by the parameter that it is about. The highest level alone is compared with a table.
PARAMETERS = {
    "highest": (tables.LEVELS, highest_level, no_entry),
    "free": (None, free_ticks, no_entry),
    "margin": (None, margin, no_entry),
}


def reason(number, call):
    """The table that a refusal is about, its words, and the entry."""
    return PARAMETERS[parameter(call)] if number == 35 else REASONS[number]
