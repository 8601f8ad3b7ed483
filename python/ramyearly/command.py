"""The command: its verbs, what it says of itself, and how it ends."""

import functools
import signal

from . import __version__
from .errors import Trouble
from .files import Stopped, stop_in_order
from .terminal import NAME, accept_any_name, put, say
from .verbs import boards, check, decode, encode, fits, listing, nearest, order, plan, report, rounds, span
from .verbs.folders import DONE, FAILED, STATUSES

VERBS = {
    "plan": plan,
    "check": check,
    "fits": fits,
    "boards": boards,
    "order": order,
    "span": span,
    "nearest": nearest,
    "report": report,
    "encode": encode,
    "decode": decode,
    "rounds": rounds,
}

SITES = """\
ramyearly VERB --help says more of each. A folder with the name of a verb is given as ./plan.

DIR is the folder of a site. It holds a job list and a level list, each as

  jobs.txt   or jobs.csv     release, deadline and cycles, a job to a line
  levels.txt or levels.csv   frequency and voltage, a level to a line
  jobs.tbl, levels.tbl       the same in bytes

The level list may begin with an idle entry: frequency 0 and, in the place of the voltage, what
idling draws in thousands of power units. On a board that draws 5,000 while it idles, levels.txt is

  0 5
  100 10
  200 10

Without an idle entry idling draws nothing.

Boards of one type differ in voltage. Where there are several boards, each further one has a level
list beside the first, with any NAME. The verb boards checks one plan for all of them, encode and
decode turn all of the lists, and the other verbs read the first alone:

  levels-NAME.txt or levels-NAME.csv   frequency and voltage, a level to a line
  levels-NAME.tbl                      the same in bytes

Readers are docked at handover and reload their plan there. A mark list beside the job list has the
ticks of the handovers: at most 8, rising. Each one strictly between the earliest release and the
latest deadline bounds intervals as these do, and others have no effect; the least energy is the
same. A missing mark list, or an empty marks.tbl, means that there are no marks.

  marks.txt  or marks.csv    a tick to a line
  marks.tbl                  the same in bytes

In place of the job list the folder may hold a task list. In each period a task releases a job at
its phase, and the deadline counts from there. The jobs are laid out over the least common multiple
of the periods, and their plan may be repeated any number of times:

  tasks.txt  or tasks.csv    phase, period, deadline and cycles, a task to a line
  tasks.tbl                  the same in bytes

The marks of such a site are ticks of one round.

Three numbers may come with a site. They stand in no file; plan, check, fits, boards, order, nearest
and report take them as options, and span the last two. All that these verbs do is about the tables
so altered:

  --highest N   only the lowest N running levels are allowed
  --free N      N ticks are kept free before each deadline
  --margin N    N percent are put on each job's cycles, rounded up

So ramyearly plan DIR --highest 3 --free 20 --margin 15 plans with the lowest three levels, to be done 20
ticks early, with 15 percent more cycles. Those left out alter nothing, and the listing takes none.

A plan is plan.tbl, with its price list prices.tbl. One that is made by hand may be text, and has no
prices. The verb fits says whether it fits, and can write it as plan.tbl; the other verbs read
plan.tbl alone:

  plan.txt   or plan.csv     interval, job and cycles, a step to a line

Where a table is there in text and in bytes, the text is used: people edit the text, and the
bytes are made from it. A table in bytes that can't be read counts as empty.

The listing is the site's least-energy plan, the window that is overfull, or the refusal; with
several folders a line with '#' and the folder stands before each.
"""


def overview():
    """What --help prints."""
    lines = [f"{NAME} {arguments:<24} {does}" for arguments, does in (verb.USAGE for verb in (listing, *VERBS.values()))]
    return "usage: " + "\n       ".join(lines) + "\n\n" + SITES + "\n" + STATUSES


def run(arguments, prepare):
    """Answers the exit status."""
    first = arguments[0] if arguments else None
    if first in ("-h", "--help"):
        put(overview())
        return DONE
    if first == "--version":
        put(f"{NAME} {__version__}\n")
        return DONE
    if first is None:
        say("give the folder of a site (--help says more)")
        return FAILED
    if first in VERBS:
        return VERBS[first].run(arguments[1:], prepare)
    return listing.run(arguments, prepare)


def main(arguments, prepare=lambda: None):
    """Runs the command. prepare is called before the archive is first used, and may raise Trouble."""
    accept_any_name()
    stop_in_order()
    # A reader that has seen enough, as head, ends the command quietly.
    signal.signal(signal.SIGPIPE, signal.SIG_DFL)
    try:
        return run(arguments, functools.cache(prepare))
    except Trouble as error:
        say(error)
        return FAILED
    except Stopped as stop:
        # The shell is to see that a signal ended the command.
        signal.signal(stop.number, signal.SIG_DFL)
        signal.raise_signal(stop.number)
