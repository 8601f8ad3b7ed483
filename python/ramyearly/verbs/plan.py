"""Plans sites, and writes what the reader's kernel loads."""

from .. import tables
from ..files import write_files
from ..operations import plan_tables
from ..sites import explained, lay_out, read_site
from .folders import LISTS, check_folder, on_sites, parse_with_out, parser_of
from .parameters import add_parameters, parameters_of

USAGE = ("plan DIR... [-o OUT]", "plan: write plan.tbl and prices.tbl")

REPEATED = """ The plan is that of one round.
Repeated any number of times it stays a least one for the repeated jobs."""


def run(arguments, prepare):
    parser = parser_of(
        "plan",
        "Plans each site: writes plan.tbl, which the reader's kernel loads, and prices.tbl, with which\n"
        "anyone can check that no schedule needs less energy. Each is written whole or not at all. A plan\n"
        "with at least one job has at most jobs + intervals - 1 steps." + LISTS + REPEATED,
        several=True,
    )
    options = parse_with_out(add_parameters(parser), arguments)

    def work(folder):
        out = folder if options.out is None else options.out
        check_folder(out)
        site = read_site(folder, parameters_of(options))
        prepare()
        with explained(site):
            site = lay_out(site)
        with explained(site):
            planned = plan_tables(*site.arguments(tables.LENT_TO_PLAN))
        paths = [tables.path_of(out, table) for table in tables.PLAN_TABLES]
        write_files(zip(paths, (planned.plan_bytes, planned.price_bytes)))
        sizes = f"{site.counts()}, intervals {len(planned.spans)}, steps {len(planned.steps)}, energy {planned.energy}"
        return f"{folder}: {sizes}{site.remarks()}; wrote {paths[0]} and {paths[1]}\n", None

    return on_sites(options.folders, work)
