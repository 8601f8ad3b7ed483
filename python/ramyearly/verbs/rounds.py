"""Lays the task list of a site out as the job list of one round."""

from .. import convert, tables
from ..errors import TableError
from ..reasons import ticks
from ..sites import explained, lay_out, read_site
from ..tables import entries_of
from .folders import check_folder, on_site, parser_of

USAGE = ("rounds DIR [OUT]", "tasks to the jobs of one round")


def run(arguments, prepare):
    parser = parser_of(
        "rounds",
        "Lays out the tasks of a site, tasks.txt, tasks.csv or tasks.tbl with phase, period, deadline (counted\n"
        "from the release) and cycles, as the jobs of one round, which takes the least common multiple of the\n"
        "periods. Prints them; with OUT it writes jobs.tbl and levels.tbl there, a site without tasks. A level\n"
        "list that begins with an idle entry (frequency 0 and the idle draw) is written with it. The marks of\n"
        "the site, marks.txt, marks.csv or marks.tbl, are ticks of one round, and are written as marks.tbl.",
    )
    parser.add_argument("out", metavar="OUT", nargs="?", help="the folder to write to (standard output if left out)")
    options = parser.parse_args(arguments)

    def work(folder):
        if options.out is not None:
            check_folder(options.out)
        site = read_site(folder)
        if tables.TASKS not in site.sources:
            raise TableError(f"{folder}: no task list (tasks.txt, tasks.csv, tasks.tbl)")
        prepare()
        with explained(site):
            site = lay_out(site)
        if options.out is not None:
            convert.write_laid_out(site, options.out)
            return "", None
        jobs = entries_of(site.data(tables.JOBS), tables.JOBS)
        return f"# repeats every {ticks(site.multiple)}\n" + tables.to_text([len(jobs)], jobs, tables.JOBS), None

    return on_site(options.folder, work)
