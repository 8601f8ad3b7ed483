"""Says what touches a span of ticks, in words for those who plan a closure."""

from .. import tables
from ..operations import check_span, touching_tables
from ..reasons import named_jobs
from ..refusals import Refused
from ..sites import alterations, explained, lay_out, read_planned
from ..tables import entries_of
from ..terminal import say
from .folders import MARK_LIST, REFUSED, TASK_LIST, on_sites, parser_of
from .pages import columns, counted, job_table, page_of
from .parameters import add_parameters, parameters_of

USAGE = ("span START END DIR...", "say what touches a span of ticks")

TICKS = (
    ("START", "the first tick of the span"),
    ("END", "the tick at which it ends, which is not in it; at most 1,000,000"),
)

OF_ONE_ROUND = """ The plan is that of one round,
and what is said is of that round."""


def run(arguments, prepare):
    parser = parser_of(
        "span",
        "Says of each site what touches a span of ticks, such as the time for which a lift is closed: the jobs\n"
        "open somewhere in it, the jobs wholly inside it, the steps of the plan whose interval shares a tick\n"
        "with it, and the nearest deadline at or after its start, be it in the span or past its end.\n"
        "\n"
        "A site is planned first: the plan is read from plan.tbl. Levels have no part in what is said, and\n"
        "no file is written. Jobs are numbered from 0 in the order of their list." + MARK_LIST + TASK_LIST + OF_ONE_ROUND,
        several=True,
        ticks=TICKS,
    )
    options = add_parameters(parser, ("free", "margin"), "140 175 DIR").parse_args(arguments)
    prepare()
    try:
        check_span(options.start, options.end)
    except Refused as refusal:
        # It is about no site, and is said once.
        say(refusal)
        return REFUSED

    def work(folder):
        site = read_planned(folder, parameters_of(options))
        with explained(site):
            site = lay_out(site)
        with explained(site):
            lent = *map(site.data, tables.LENT_TO_TOUCHING), options.start, options.end
            touched = touching_tables(*lent, site.parameters)
        between_sites = "\n" if len(options.folders) > 1 else ""
        return page(site.altered(), touched, options.start, options.end) + between_sites, None

    return on_sites(options.folders, work)


def page(site, touched, start, end):
    """What is printed of a site."""
    jobs = entries_of(site.data(tables.JOBS), tables.JOBS)
    parts = (
        about_span(site, start, end),
        about_open_jobs(site.sources[tables.JOBS], touched.open_jobs),
        about_inside_jobs(touched.inside_jobs),
        about_steps(touched.steps, touched.spans),
        about_deadline(jobs, touched.deadline, start),
    )
    return page_of(parts)


def about_span(site, start, end):
    length = counted(end - start, "tick", "ticks")
    lines = [f"{site.folder}: from tick {start:,} up to, but not including, tick {end:,} ({length})"]
    if site.multiple is not None:
        every = counted(site.multiple, "tick", "ticks")
        lines.append(f"All that follows is of one round, which repeats every {every}; later rounds are not listed.")
    altered = alterations(site.parameters, b"")
    return [*lines, altered] if altered else lines


def about_open_jobs(source, open_jobs):
    if not open_jobs:
        return ["No job is open in it."]
    are_open = counted(len(open_jobs), "job is", "jobs are")
    return [f"{are_open} open somewhere in it (jobs are numbered from 0):", *job_table(source, open_jobs)]


def about_inside_jobs(inside_jobs):
    if not inside_jobs:
        return ["No job lies wholly inside it."]
    return [f"{counted(len(inside_jobs), 'job lies', 'jobs lie')} wholly inside it: {named_jobs(inside_jobs)}."]


def about_steps(steps, spans):
    """The steps, each with from and to of its interval."""
    if not steps:
        return ["No step of the plan has an interval that shares a tick with it."]
    share = counted(len(steps), "step of the plan has an interval that shares", "steps of the plan have intervals that share")
    rows = [[*spans[interval], job, cycles] for interval, job, cycles in steps]
    return [f"{share} a tick with it; the cycles run between from and to:", *columns(["from", "to", "job", "cycles"], rows)]


def about_deadline(jobs, deadline, start):
    if deadline is None:
        return [f"There is no deadline at or after tick {start:,}."]
    due = [number for number, job in enumerate(jobs) if job[1] == deadline]
    return [f"The nearest deadline at or after tick {start:,} is tick {deadline:,}, of {named_jobs(due)}."]
