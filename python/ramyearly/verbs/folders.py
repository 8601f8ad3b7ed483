"""What all verbs have in common: their arguments, and their work on one folder after another."""

import argparse
import errno
import os

from ..errors import SiteError
from ..tables import read_number
from ..terminal import NAME, Progress, put, say

# Exit statuses. With several folders the worst one is the command's.
DONE, REFUSED, FAILED = 0, 1, 2

# Each verb on a site says which lists may stand there; a verb that reads no levels, of the marks and the tasks alone; one that
# reads no marks says so itself.
TASK_LIST = """

A task list, tasks.txt, tasks.csv or tasks.tbl, may stand in place of the job list: phase, period,
deadline (counted from the release) and cycles, a task to a line. Its jobs are laid out over the
least common multiple of the periods, and these are the site's jobs."""

MARK_LIST = """

A mark list, marks.txt, marks.csv or marks.tbl, may stand beside the job list: at most 8 ticks, rising, a
tick to a line. At each one there is a handover, at which readers reload their plan. Those strictly
between the earliest release and the latest deadline bound intervals as these do, and others have no
effect. Of a site with tasks they are ticks of one round. Without a mark list nothing more is cut."""

IDLE_ENTRY = """

The level list may begin with an idle entry, frequency 0 and in the place of the voltage what idling
draws in thousands of power units. With a first line '0 5' idling draws 5,000, without one nothing."""

LISTS = IDLE_ENTRY + MARK_LIST + TASK_LIST

STATUSES = """\
exit status: 0 done; 1 a site is overfull or refused, or its text is no table, or a span is refused,
or a plan is refused for a board; 2 wrong usage, or a file could not be written. With several folders
the worst one.
"""


def number(name):
    """The type of a number of 32 bits that stands among the arguments, and is called by this name."""

    def read(word):
        try:
            return read_number(word, name, 32)
        except ValueError as error:
            raise argparse.ArgumentTypeError(error) from None

    return read


def parser_of(verb, description, several=False, ticks=()):
    """The parser of a verb, with its folders. Before them stand ticks, given as (name, help)."""
    prog = f"{NAME} {verb}" if verb else NAME
    parser = argparse.ArgumentParser(
        prog=prog, description=description, epilog=STATUSES, allow_abbrev=False,
        formatter_class=argparse.RawDescriptionHelpFormatter,
    )  # fmt: skip
    for name, said in ticks:
        parser.add_argument(name.lower(), metavar=name, type=number("tick"), help=said)
    if several:
        parser.add_argument("folders", metavar="DIR", nargs="+", help="the folder of a site")
    else:
        parser.add_argument("folder", metavar="DIR", help="the folder of a site")
    return parser


def parse_with_out(parser, arguments, left_out="that of the site"):
    """The options of a verb that writes plans to a folder: one that is given or, where that is left out, what is said of it."""
    parser.add_argument("-o", dest="out", metavar="OUT", help=f"the folder to write to ({left_out} if left out)")
    options = parser.parse_args(arguments)
    if options.out is not None and len(options.folders) > 1:
        parser.error("-o takes one site, or the plans would be written over each other")
    return options


def check_folder(path):
    if not os.path.exists(path):
        raise FileNotFoundError(errno.ENOENT, "no such folder", path)
    if not os.path.isdir(path):
        raise NotADirectoryError(errno.ENOTDIR, "not a folder", path)
    if not os.access(path, os.R_OK | os.X_OK):
        raise PermissionError(errno.EACCES, "cannot be read", path)


def on_site(folder, work, progress=None):
    """Does a verb's work on a site, and prints the text that it gives and the message that it ends with, or None. An empty
    message means that something is refused, and that the text says what. Answers the status."""
    text, message, status = "", None, REFUSED
    try:
        check_folder(folder)
        text, message = work(folder)
        status = DONE if message is None else REFUSED
    except SiteError as error:
        message = error
    except OSError as error:
        message, status = (f"{error.filename}: {error.strerror}" if error.filename else error.strerror), FAILED
    if progress:
        progress.clear()
    put(text)
    if message:
        say(message)
    return status


def on_sites(folders, work):
    """Does a verb's work on each site, and goes on after one that is refused. Answers the worst status."""
    progress = Progress(len(folders))
    worst = DONE
    for number, folder in enumerate(folders, start=1):
        progress.show(number, folder)
        worst = max(worst, on_site(folder, work, progress))
    return worst
