"""Turns the tables of a folder from bytes into text."""

from .. import convert, tables
from .folders import check_folder, on_site, parser_of

USAGE = ("decode DIR [OUT]", "tables in bytes to text")


def run(arguments, _prepare):
    does = (
        "\ndecode prints each of jobs.tbl or tasks.tbl, marks.tbl, levels.tbl, levels-NAME.tbl, plan.tbl,\n"
        "prices.tbl and ordered.tbl that is there."
    )
    parser = parser_of("decode", tables.__doc__ + does)
    parser.add_argument("out", metavar="OUT", nargs="?", help="the folder to write to (standard output if left out)")
    parser.add_argument("--csv", action="store_true", help="commas between the columns, and their names in a line")
    options = parser.parse_args(arguments)

    def work(folder):
        made = convert.decode(folder, options.csv)
        if options.out is None:
            return "".join(f"# {table.name}.tbl\n{text}" for table, text in made), None
        check_folder(options.out)
        convert.write_decoded(made, options.out, options.csv)
        return "", None

    return on_site(options.folder, work)
