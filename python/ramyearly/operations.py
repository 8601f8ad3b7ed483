"""The operations on plain values.

A level is (frequency, voltage), a job (release, deadline, cycles), a task (phase, period, deadline, cycles), a step
(interval, job, cycles) and a price (end, price). Jobs and intervals are numbered from 0. Levels may begin with the idle
entry (0, draw): idling then draws 1,000 x draw in each tick, and without it nothing. Marks are the ticks of handovers, rising:
each one strictly between the earliest release and the latest deadline bounds intervals as these do, and others have no
effect. A refusal is raised as Refused, or as Overfull where no schedule meets all deadlines. A number that has no room in the
tables is a ValueError.

Three numbers may come with a site, by name: highest, the highest running level allowed, counted from 1 without the idle entry
(None allows all); free, the ticks kept free before each deadline; and margin, the percent put on the cycles of each job,
rounded up. Every answer is about the tables that they make of the ones given, and left out they alter nothing.
"""

from typing import NamedTuple

from . import archive, tables
from .calls import Call, altered_jobs, interval_spans
from .parameters import UNALTERED, Parameters, with_room
from .refusals import overfull, refused
from .tables import check_room, entries_of


class Planned(NamedTuple):
    """A plan of least energy."""

    energy: int  # the energy figure
    steps: list  # (interval, job, cycles), in the order written
    spans: list  # for each interval (from, to)
    prices: list  # for each interval (end, price)
    shares: list  # for each interval the cycles of each job there
    plan_bytes: bytes  # the plan as the kernel loads it
    price_bytes: bytes  # the price list as the check reads it


class Ordered(NamedTuple):
    """A plan with its steps in cell order. Two plans for the same jobs, marks, free ticks and margin come out equal exactly
    where every job has the same cycles in every interval."""

    steps: list  # (interval, job, cycles), interval by interval and within it by job
    plan_bytes: bytes  # the same plan as the kernel loads it


class Touched(NamedTuple):
    """What touches a span of ticks, which goes from its start up to, not including, its end."""

    open_jobs: list  # the numbers of the jobs open somewhere in it, rising
    inside_jobs: list  # the numbers of the jobs wholly inside it, rising
    steps: list  # (interval, job, cycles), in cell order; of such a step the interval shares a tick with the span
    spans: list  # for each interval of the plan (from, to); a step runs its cycles between them
    deadline: int  # of all jobs' deadlines at or after its start the nearest, or None


class Setting(NamedTuple):
    """The clock of one interval: extra / gap ticks on the upper level of the band, then the lower one."""

    band: int
    extra: int
    gap: int


class Rounds(NamedTuple):
    """The jobs of one round of tasks. A plan of them, repeated any number of times, is a least one for the repeated jobs."""

    jobs: list  # (release, deadline, cycles), by release and then by task
    multiple: int  # of all periods, the least: the round repeats after so many ticks
    tasks: list  # for each job the number of its task
    job_bytes: bytes  # the job table as written


def level_table(levels):
    return tables.to_bytes(levels, tables.LEVELS)


def job_table(jobs):
    return tables.to_bytes(jobs, tables.JOBS)


def mark_table(marks):
    return tables.to_bytes([(tick,) for tick in marks], tables.MARKS)


def plan_table(intervals, steps):
    return tables.to_bytes(tables.join_cells(steps), tables.PLAN, sizes=(intervals,))


def plan(levels, jobs, *, marks=(), highest=None, free=0, margin=0):
    """A plan that no schedule beats which meets all deadlines, with the prices that show it. With at least one job it has at
    most jobs + intervals - 1 steps, and pays no energy for that. Levels may begin with (0, draw); every schedule pays the
    draw where it idles, and the energy figure has it for the whole time. Marks cut intervals, and the least energy is the
    same with them as without. With parameters the schedules, the deadlines and the cycles are those of the altered tables."""
    return plan_tables(level_table(levels), job_table(jobs), mark_table(marks), with_room(highest, free, margin))


def plan_tables(levels, jobs, marks, parameters=UNALTERED):
    """Plans a site whose tables are bytes."""
    answer, plan_buffer, price_buffer, shares = archive.plan(levels, jobs, marks, parameters)
    call = Call(levels, jobs, marks, parameters=parameters)
    if answer.number == 11:
        raise overfull(answer, call)
    if answer.number:
        raise refused(answer.number, answer.place, call)
    plan_bytes = bytes(plan_buffer)[: tables.PLAN.length(answer.steps)]
    price_bytes = bytes(price_buffer)[: tables.PRICES.length(answer.intervals)]
    job_entries = entries_of(jobs, tables.JOBS)
    prices = entries_of(price_bytes, tables.PRICES)
    count = len(job_entries)
    return Planned(
        energy=answer.energy,
        steps=tables.split_cells(entries_of(plan_bytes, tables.PLAN)),
        spans=tables.spans(job_entries, prices),
        prices=prices,
        shares=[list(shares[count * interval : count * (interval + 1)]) for interval in range(answer.intervals)],
        plan_bytes=plan_bytes,
        price_bytes=price_bytes,
    )


def check(levels, jobs, steps, prices, *, marks=(), highest=None, free=0, margin=0):
    """The energy figure of a plan that is accepted with its prices. A plan has as many intervals as there are prices, and
    its marks and parameters are those that it was made with. Levels may begin with (0, draw)."""
    tables_in_bytes = level_table(levels), job_table(jobs), mark_table(marks), *plan_and_prices(steps, prices)
    return check_tables(*tables_in_bytes, with_room(highest, free, margin))


def plan_and_prices(steps, prices):
    """The bytes of a plan and of its price list."""
    return plan_table(len(prices), steps), tables.to_bytes(prices, tables.PRICES)


def check_tables(levels, jobs, marks, plan_bytes, price_bytes, parameters=UNALTERED):
    """Checks a plan and its price list that are bytes."""
    call = Call(levels, jobs, marks, plan_bytes, price_bytes, parameters=parameters)
    answer = archive.check(levels, jobs, marks, plan_bytes, price_bytes, parameters)
    if answer.number:
        raise refused(answer.number, answer.place, call)
    return answer.energy


def fits(levels, jobs, plan, *, marks=(), highest=None, free=0, margin=0):
    """The energy figure of a plan that fits: it gives each job exactly its cycles between release and deadline and, carried out,
    meets all deadlines. Whether another schedule needs less energy is not said: that is what check says, with prices. A plan is
    (intervals, steps): how many intervals it has, and its steps, in any order. Its marks and parameters are those that it was
    made with. Levels may begin with (0, draw)."""
    tables_in_bytes = level_table(levels), job_table(jobs), mark_table(marks), plan_table(*plan)
    return fits_tables(*tables_in_bytes, with_room(highest, free, margin))


def fits_tables(levels, jobs, marks, plan_bytes, parameters=UNALTERED):
    """The energy figure of a plan that fits, of tables that are bytes."""
    answer = archive.fits(levels, jobs, marks, plan_bytes, parameters)
    if answer.number:
        raise refused(answer.number, answer.place, Call(levels, jobs, marks, plan_bytes, parameters=parameters))
    return answer.energy


def spans_of_tables(levels, jobs, marks, parameters=UNALTERED):
    """From and to of each interval of a site whose tables are bytes. Wrong tables are refused: the archive does so before it
    reads a plan, and so without one, which is then what it refuses."""
    answer = archive.fits(levels, jobs, marks, b"", parameters)
    if answer.number != 15:
        raise refused(answer.number, answer.place, Call(levels, jobs, marks, parameters=parameters))
    return interval_spans(altered_jobs(jobs, parameters), marks)


def order(levels, jobs, steps, prices, *, marks=(), highest=None, free=0, margin=0):
    """A plan that is accepted with its prices, with its steps in cell order; the prices are those of the ordered plan too.
    A plan has as many intervals as there are prices, and its marks and parameters are those that it was made with. Levels may
    begin with (0, draw)."""
    tables_in_bytes = level_table(levels), job_table(jobs), mark_table(marks), *plan_and_prices(steps, prices)
    return order_tables(*tables_in_bytes, with_room(highest, free, margin))


def order_tables(levels, jobs, marks, plan_bytes, price_bytes, parameters=UNALTERED):
    """Orders a plan that is bytes, as is its price list."""
    call = Call(levels, jobs, marks, plan_bytes, price_bytes, parameters=parameters)
    answer, buffer = archive.order(levels, jobs, marks, plan_bytes, price_bytes, parameters)
    if answer.number:
        raise refused(answer.number, answer.place, call)
    ordered_bytes = bytes(buffer)[: answer.length]
    return Ordered(tables.split_cells(entries_of(ordered_bytes, tables.PLAN)), ordered_bytes)


def touching(jobs, plan, start, end, *, marks=(), free=0, margin=0):
    """What touches the span of ticks from start up to, not including, end. A plan is (intervals, steps): how many intervals
    it has, and its steps, in any order. What its steps add to is no matter here. Its marks and parameters are those that it was
    made with."""
    span = check_room(start, "start", 32), check_room(end, "end", 32)
    tables_in_bytes = job_table(jobs), mark_table(marks), plan_table(*plan)
    return touching_tables(*tables_in_bytes, *span, with_room(free=free, margin=margin))


def touching_tables(jobs, marks, plan_bytes, start, end, parameters=UNALTERED):
    """What touches a span, of jobs, marks and a plan that are bytes. Of the parameters the highest level has no part in it."""
    parameters = parameters._replace(highest=None)
    call = Call(jobs=jobs, marks=marks, plan=plan_bytes, start=start, end=end, parameters=parameters)
    answer, open_jobs, inside_jobs, cells = archive.touching(jobs, marks, plan_bytes, start, end, parameters)
    if answer.number:
        raise refused(answer.number, answer.place, call)
    cycles = dict(entries_of(plan_bytes, tables.PLAN))
    return Touched(
        open_jobs=open_jobs[: answer.open],
        inside_jobs=inside_jobs[: answer.inside],
        steps=tables.split_cells([(cell, cycles[cell]) for cell in cells[: answer.steps]]),
        spans=interval_spans(altered_jobs(jobs, parameters), marks),
        deadline=answer.deadline or None,  # no deadline is 0
    )


def nearest(levels, jobs, *, highest=None, free=0, margin=0):
    """Each job with its room, as (job, room): the most cycles that can be added to that job alone with the set still fitting, so
    that one more makes some window overfull. The job nearest to trouble is first: the smallest room, and of equal ones the
    lowest number. Added cycles come on top of those with the margin, and the most cycles that a job table may have is no matter
    for them. An overfull set has no list, and is raised as Overfull. Levels may begin with (0, draw), which is no matter here."""
    return nearest_of(level_table(levels), job_table(jobs), with_room(highest, free, margin))


def nearest_of(levels, jobs, parameters=UNALTERED):
    """Each job with its room, of levels and jobs that are bytes."""
    answer, numbers = archive.nearest(levels, jobs, parameters)
    call = Call(levels, jobs, parameters=parameters)
    if answer.number == 11:
        raise overfull(answer, call)
    if answer.number:
        raise refused(answer.number, answer.place, call)
    written = numbers[: answer.length]
    return list(zip(written[::2], written[1::2]))


def check_span(start, end):
    """Refuses a wrong span. The archive does so before it reads a table, and so without one."""
    answer, *_ = archive.touching(b"", b"", b"", start, end)
    if answer.number == 33:
        raise refused(answer.number, answer.place, Call(start=start, end=end))


def setting(levels, length, load, *, highest=None):
    """The setting of one interval of this length with this load; zeros for load 0. Levels may begin with (0, draw), and
    the draw is one of the powers that decide which levels work."""
    length, load = check_room(length, "length", 32), check_room(load, "load", 64)
    return setting_of(level_table(levels), length, load, with_room(highest))


def setting_of(levels, length, load, parameters=UNALTERED):
    """The setting of an interval, of levels that are bytes. Of the parameters the highest level alone has a part in it."""
    parameters = Parameters(highest=parameters.highest)
    answer = archive.setting(levels, length, load, parameters)
    if answer.number:
        raise refused(answer.number, answer.place, Call(levels=levels, length=length, load=load, parameters=parameters))
    return Setting(answer.band, answer.extra, answer.gap)


def spare(levels, jobs, start, end, *, highest=None, free=0, margin=0):
    """The spare of a window, negative where it is overfull. Levels may begin with (0, draw), which is no matter here."""
    span = check_room(start, "start", 32), check_room(end, "end", 32)
    return spare_of(level_table(levels), job_table(jobs), *span, with_room(highest, free, margin))


def spare_of(levels, jobs, start, end, parameters=UNALTERED):
    answer = archive.spare(levels, jobs, start, end, parameters)
    if answer.number:
        raise refused(answer.number, answer.place, Call(levels, jobs, start=start, end=end, parameters=parameters))
    return answer.spare


def working_frequencies(levels, *, highest=None):
    """The frequencies of the levels that work, rising, among those that are allowed. Boards of which they are the same take the
    same plans with the same prices, and differ in their energy figures. Levels may begin with (0, draw)."""
    return working_frequencies_of(level_table(levels), with_room(highest))


def working_frequencies_of(levels, parameters=UNALTERED):
    """The working frequencies of levels that are bytes. The archive says which: the band of one cycle more than a working
    frequency gives in a tick leads, by its gap, to the next, and the top frequency is the last. Of the parameters the highest
    level alone has a part in it."""
    highest = Parameters(highest=parameters.highest)
    top = spare_of(levels, tables.NO_JOBS, 0, 1, highest)
    found, frequency = [], 0
    while frequency < top:
        frequency += setting_of(levels, 1, frequency + 1, highest).gap
        found.append(frequency)
    return found


def rounds(tasks):
    """The jobs of these tasks, laid out over the least common multiple of their periods."""
    return rounds_of(tables.to_bytes(tasks, tables.TASKS))


def rounds_of(tasks):
    answer, buffer = archive.rounds(tasks)
    if answer.number:
        raise refused(answer.number, answer.place, Call(tasks=tasks))
    job_bytes = bytes(buffer)[: answer.length]
    return Rounds(entries_of(job_bytes, tables.JOBS), answer.multiple, tasks_of_jobs(tasks, answer.length), job_bytes)


def tasks_of_jobs(tasks, length):
    """The task of each job. The archive says which: a task that has its number as its cycles gives them to its jobs."""
    entries = entries_of(tasks, tables.TASKS)
    numbered = [(phase, period, deadline, number) for number, (phase, period, deadline, _) in enumerate(entries, start=1)]
    _, buffer = archive.rounds(tables.to_bytes(numbered, tables.TASKS))
    return [number - 1 for _, _, number in entries_of(bytes(buffer)[:length], tables.JOBS)]
