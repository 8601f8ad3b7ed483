"""Checks the plans that stand beside the tables of sites."""

from ..operations import check_tables
from ..sites import explained, lay_out, read_plan, read_site
from ..tables import LENT_TO_CHECK
from .folders import LISTS, on_sites, parser_of
from .parameters import add_parameters, parameters_of

USAGE = ("check DIR...", "check plan.tbl and prices.tbl")


def run(arguments, prepare):
    parser = parser_of(
        "check",
        "Checks plan.tbl and prices.tbl against the tables of each site: a plan that is accepted gives\n"
        "each job its cycles between release and deadline, and no schedule needs less energy." + LISTS,
        several=True,
    )
    options = add_parameters(parser).parse_args(arguments)

    def work(folder):
        site = read_plan(read_site(folder, parameters_of(options)))
        prepare()
        with explained(site):
            site = lay_out(site)
        with explained(site):
            energy = check_tables(*site.arguments(LENT_TO_CHECK))
        return f"{folder}: accepted, energy {energy}{site.remarks()}\n", None

    return on_sites(options.folders, work)
