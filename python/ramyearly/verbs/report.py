"""Writes a page with pictures of a site."""

import os

from .. import report, tables
from ..errors import TableError
from ..files import write_file
from ..operations import plan_tables
from ..refusals import Refused
from ..sites import explain, lay_out, read_site
from .folders import LISTS, on_site, parser_of
from .parameters import add_parameters, parameters_of

USAGE = ("report DIR [-o FILE]", "write a page with pictures")


def run(arguments, prepare):
    parser = parser_of(
        "report",
        "Writes a page with pictures of a site: its jobs, its clock and its loads, the figure, the tightest\n"
        "windows and the room of each job; or the overfull window; or the refused entry. A browser opens it,\n"
        "from the file alone." + LISTS,
    )
    said = "the file to write, - for standard output (report.html beside the tables if left out)"
    parser.add_argument("-o", dest="out", metavar="FILE.html", help=said)
    options = add_parameters(parser).parse_args(arguments)

    def work(folder):
        prepare()
        site, message = None, None
        try:
            site = read_site(folder, parameters_of(options))
            site = lay_out(site)
            outcome = plan_tables(*site.arguments(tables.LENT_TO_PLAN))
        except Refused as refusal:
            outcome, message = refusal, explain(refusal, site)
        except TableError as error:
            outcome, message = error, str(error)
        text = report.page(os.path.basename(os.path.abspath(folder)), site, outcome)
        if options.out == "-":
            return text, message
        out = os.path.normpath(os.path.join(folder, "report.html")) if options.out is None else options.out
        write_file(out, text.encode())
        # A line about a device could end up behind the page itself.
        return f"{folder}: wrote {out}\n" if os.path.isfile(out) else "", message

    return on_site(options.folder, work)
