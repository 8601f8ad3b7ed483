"""What an operation was lent, and what the archive says of it beyond its answer."""

from typing import NamedTuple

from . import archive, tables
from .parameters import UNALTERED, Parameters
from .tables import entries_of

MOST_TICKS = 1_000_000
# The highest frequency: in the most ticks it gives the most cycles that a job may have.
TOP_LEVEL = tables.to_bytes([(1000, 1)], tables.LEVELS)
TOP_CYCLES = 1000 * MOST_TICKS
NO_STEPS = tables.to_bytes([], tables.PLAN, sizes=(1,))  # a plan of one interval


class Call(NamedTuple):
    """What an operation was lent. A refusal's words look up in it what they speak of."""

    levels: bytes = b""
    jobs: bytes = b""
    marks: bytes = tables.NO_MARKS
    plan: bytes = b""
    prices: bytes = b""
    tasks: bytes = b""
    length: int = 0
    load: int = 0
    start: int = 0
    end: int = 0
    parameters: Parameters = UNALTERED


def altered(call):
    """The call with the tables that its parameters make of the ones lent, for which all of these are in range."""
    levels = altered_levels(call.levels, call.parameters)
    jobs = altered_jobs(call.jobs, call.parameters)
    return call._replace(levels=levels, jobs=jobs, parameters=UNALTERED)


def altered_levels(levels, parameters):
    """The level table with the levels that are allowed. The archive says which: its top frequency is that of the last one."""
    if parameters.highest is None:
        return levels
    top = archive.spare(levels, tables.NO_JOBS, 0, 1, Parameters(highest=parameters.highest)).spare
    return tables.to_bytes([level for level in entries_of(levels, tables.LEVELS) if level[0] <= top], tables.LEVELS)


def altered_jobs(jobs, parameters):
    """The job table with the deadlines and cycles that come out."""
    if (parameters.free, parameters.margin) == (0, 0):
        return jobs
    return tables.to_bytes([altered_job(job, parameters) for job in entries_of(jobs, tables.JOBS)], tables.JOBS)


def altered_job(job, parameters):
    """A job with its deadline and its cycles as they come out. The archive says which they are: alone in a table the job has the
    nearest deadline after its release, and its cycles are what is missing in a window without others."""
    release, deadline, cycles = job
    alone = tables.to_bytes([(release, deadline, 1)], tables.JOBS)
    answer, *_ = archive.touching(alone, tables.NO_MARKS, NO_STEPS, release, deadline, Parameters(free=parameters.free))
    longest = tables.to_bytes([(0, MOST_TICKS, cycles)], tables.JOBS)
    left = archive.spare(TOP_LEVEL, longest, 0, MOST_TICKS, Parameters(margin=parameters.margin)).spare
    return release, answer.deadline, TOP_CYCLES - left


def inside(call, start, end):
    """The jobs inside a window. The archive says which: alone in a table, such a job takes of the window's spare."""

    def spare(entries):
        return archive.spare(call.levels, tables.to_bytes(entries, tables.JOBS), start, end).spare

    empty = spare([])
    return [number for number, job in enumerate(entries_of(call.jobs, tables.JOBS)) if spare([job]) < empty]


def interval_spans(jobs, marks):
    """From and to of each interval that jobs and marks make. The archive says where intervals end: jobs of one cycle each
    always have a plan on this level, and its price list has the ends."""
    entries = [(release, deadline, 1) for release, deadline, _ in entries_of(jobs, tables.JOBS)]
    answer, _, prices, _ = archive.plan(TOP_LEVEL, tables.to_bytes(entries, tables.JOBS), marks)
    written = bytes(prices)[: tables.PRICES.length(answer.intervals)]
    return tables.spans(entries, entries_of(written, tables.PRICES))
