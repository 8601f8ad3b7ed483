"""Writes the plans of sites with their steps in cell order, so that archives can compare them by bytes."""

from .. import tables
from ..files import write_file
from ..operations import order_tables
from ..sites import explained, lay_out, read_plan, read_site
from .folders import LISTS, check_folder, on_sites, parse_with_out, parser_of
from .parameters import add_parameters, parameters_of

USAGE = ("order DIR... [-o OUT]", "order steps: write ordered.tbl")


def run(arguments, prepare):
    parser = parser_of(
        "order",
        "Writes ordered.tbl: the plan of plan.tbl with its steps in cell order, interval by interval and within\n"
        "an interval by job. Two plans for the same jobs, marks, free ticks and margin are then the same bytes\n"
        "exactly when every job has the same cycles in every interval, and cmp compares them. What check refuses\n"
        "is refused here too.\n"
        "\n"
        "plan.tbl and prices.tbl stay as they are. ordered.tbl may stand in place of plan.tbl, with the same\n"
        "prices and the same energy figure. It is written whole or not at all, over an older one; a site that\n"
        "is refused keeps an older one, and so does a site that is planned anew: order again after planning." + LISTS,
        several=True,
    )
    options = parse_with_out(add_parameters(parser), arguments)

    def work(folder):
        out = folder if options.out is None else options.out
        check_folder(out)
        site = read_plan(read_site(folder, parameters_of(options)))
        prepare()
        with explained(site):
            site = lay_out(site)
        with explained(site):
            ordered = order_tables(*site.arguments(tables.LENT_TO_CHECK)).plan_bytes
        path = tables.path_of(out, tables.ORDERED)
        write_file(path, ordered)
        intervals, steps = tables.sizes_of(ordered, tables.ORDERED)
        stood = ", in order already" if ordered == site.data(tables.PLAN) else ""
        sizes = f"{site.counts()}, intervals {intervals}, steps {steps}"
        return f"{folder}: {sizes}{stood}{site.remarks()}; wrote {path}\n", None

    return on_sites(options.folders, work)
