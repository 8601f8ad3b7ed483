"""The listing of sites, which is what the command does without a verb."""

from ..program import listing
from ..refusals import Refused
from ..sites import explain, lay_out, read_site
from .folders import LISTS, on_sites, parser_of
from .parameters import NOT_ALTERED

USAGE = ("DIR...", "print the listing of each site")


def run(arguments, prepare):
    parser = parser_of("", "Prints the listing of each site." + LISTS + NOT_ALTERED, several=True)
    folders = parser.parse_args(arguments).folders

    def work(folder):
        site = read_site(folder)
        prepare()
        try:
            site = lay_out(site)
        except Refused as refused:
            # The listing program reads jobs alone. What keeps tasks from being laid out is printed as it prints a refusal.
            text, refusal = f"refused {refused.number} {refused.place}\n", refused
        else:
            text, refusal = listing(site)
        heading = f"# {folder}\n" if len(folders) > 1 else ""
        return heading + text, refusal and explain(refusal, site)

    return on_sites(folders, work)
