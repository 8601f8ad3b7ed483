"""Says whether plans fit, such as those that are made by hand and have no prices."""

import os

from .. import tables
from ..files import write_file
from ..operations import fits_tables
from ..sites import explained, lay_out, read_plan_by_hand, read_site, with_intervals
from .folders import LISTS, check_folder, on_sites, parse_with_out, parser_of
from .parameters import add_parameters, parameters_of

USAGE = ("fits DIR... [-o OUT]", "say whether a plan made by hand fits")


def run(arguments, prepare):
    parser = parser_of(
        "fits",
        "Says whether the plan of each site fits, and prints its energy figure. A plan that fits gives each job\n"
        "exactly its cycles between release and deadline and, carried out, meets all deadlines. No prices are\n"
        "read, and whether another schedule needs less energy is not said: that is what check says, of\n"
        "plan.tbl with prices.tbl.\n"
        "\n"
        "The plan is made by hand in plan.txt or plan.csv, a step to a line: interval, job and cycles. Intervals\n"
        "and jobs are numbered from 0; the lines of the listing that begin with span are the intervals, with\n"
        "from and to. With --free they end at the altered deadlines, and report shows them. The steps stand in\n"
        "any order. What follows a '#' counts for nothing, and what decode prints of a plan is read back. Where\n"
        "neither file is there, the plan is that of plan.tbl.\n"
        "\n"
        "With -o a plan that fits is written to OUT as plan.tbl, which the reader's kernel loads, whole or not\n"
        "at all, over an older one. No price list is written, and one that is there stays: it is of another\n"
        "plan, as check tells. Where the plan does not fit, an older plan.tbl stays." + LISTS,
        several=True,
    )
    options = parse_with_out(add_parameters(parser), arguments, left_out="nothing is written")

    def work(folder):
        if options.out is not None:
            check_folder(options.out)
        site = read_plan_by_hand(read_site(folder, parameters_of(options)))
        prepare()
        with explained(site):
            site = lay_out(site)
        with explained(site):
            site = with_intervals(site)
            energy = fits_tables(*site.arguments(tables.LENT_TO_FITS))
        wrote = "" if options.out is None else f"; wrote {write_plan(site, options.out)}"
        name = os.path.basename(site.sources[tables.PLAN].path)
        return f"{folder}: {name} fits, energy {energy}{site.remarks()}{wrote}\n", None

    return on_sites(options.folders, work)


def write_plan(site, out):
    """Writes a site's plan in bytes, and answers the path."""
    path = tables.path_of(out, tables.PLAN)
    write_file(path, site.data(tables.PLAN))
    return path
