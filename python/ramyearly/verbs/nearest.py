"""Says which job is nearest to trouble, in words for those who are asked for a longer task."""

from .. import tables
from ..operations import nearest_of
from ..rooms import about_nearest, about_room
from ..sites import alterations, explained, lay_out, read_levels_and_work
from .folders import IDLE_ENTRY, TASK_LIST, on_sites, parser_of
from .pages import counted, job_table, page_of
from .parameters import add_parameters, parameters_of

USAGE = ("nearest DIR...", "say which job is nearest to trouble")

NO_MARKS = """

A mark list, marks.txt, marks.csv or marks.tbl, is not read: the ticks of handovers cut intervals, and
leave every job its room."""

OF_ONE_ROUND = " What is said is of one round."
LISTS = IDLE_ENTRY + NO_MARKS + TASK_LIST + OF_ONE_ROUND


def run(arguments, prepare):
    parser = parser_of(
        "nearest",
        "Says of each site which job is nearest to trouble, before a client lengthens a task, and lists each\n"
        "job with its room: the most cycles that can be added to it alone with all deadlines still met. One\n"
        "more, and no schedule meets them. The smallest room is listed first, and of equal ones the lowest\n"
        "job number. Jobs are numbered from 0 in the order of their list.\n"
        "\n"
        "No plan is needed, and no file is written. The room is what the top frequency leaves, so that what\n"
        "idling draws has no part in it. Added cycles come on top of those with a margin, and the most cycles\n"
        "that a job list may give a job, 1,000,000,000, does not count for them." + LISTS,
        several=True,
    )
    options = add_parameters(parser).parse_args(arguments)

    def work(folder):
        site = read_levels_and_work(folder, parameters_of(options))
        prepare()
        with explained(site):
            site = lay_out(site)
        with explained(site):
            rooms = nearest_of(*site.arguments(tables.LENT_TO_NEAREST))
        between_sites = "\n" if len(options.folders) > 1 else ""
        return page(site.altered(), rooms) + between_sites, None

    return on_sites(options.folders, work)


def page(site, rooms):
    """What is printed of a site."""
    first = f"{site.folder}: {about_nearest(rooms)}"
    if not rooms:
        return page_of([[first]])
    return page_of([[first, *about_tables(site)], about_jobs(site.sources[tables.JOBS], rooms), about_room(site)])


def about_tables(site):
    """That the jobs are those of one round, and what parameters have altered, where that is so."""
    found = []
    if site.multiple is not None:
        found.append(f"All that follows is of one round, which repeats every {counted(site.multiple, 'tick', 'ticks')}.")
    altered = alterations(site.parameters, site.level_data())
    return [*found, altered] if altered else found


def about_jobs(source, rooms):
    """The jobs with their room, each with its task where it was laid out from one."""
    tasks = [] if source.tasks is None else [("task", source.tasks)]
    return job_table(source, [job for job, _ in rooms], [("room", dict(rooms)), *tasks])
