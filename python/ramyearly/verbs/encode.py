"""Turns the tables of a folder from text into bytes."""

from .. import convert, tables
from .folders import check_folder, on_site, parser_of

USAGE = ("encode DIR [OUT]", "tables in text to tables in bytes")


def run(arguments, _prepare):
    does = (
        "\nencode writes jobs.tbl or tasks.tbl, marks.tbl, levels.tbl and each levels-NAME.tbl, each where its\n"
        "text is there."
    )
    parser = parser_of("encode", tables.__doc__ + does)
    parser.add_argument("out", metavar="OUT", nargs="?", help="the folder to write to (DIR if left out)")
    options = parser.parse_args(arguments)

    def work(folder):
        out = options.out or folder
        check_folder(out)
        convert.encode(folder, out)
        return "", None

    return on_site(options.folder, work)
