"""The boards of a site's folder: each has a level list of its own, and all have the same jobs, marks and plan.

Boards of one type have the same working frequencies and differ in voltage. A plan that is accepted with its prices for one of
them is accepted for all of them, and is a plan of least energy on each. The energy figure is each board's own. The parameters
are the same for all, and the working frequencies are those of the levels that these allow. Nothing of this is decided here:
the archive is asked for each board.
"""

import os
from typing import NamedTuple

from . import tables
from .errors import SiteError, TableError
from .operations import check_tables, plan_tables, working_frequencies_of
from .refusals import Refused
from .sites import Source, explain, explained, is_missing, read_plan, read_source


class Board(NamedTuple):
    """A board, and what the archive says of it."""

    file: str  # the name of its level list's file
    source: Source = None  # its level list, or None where the text is no table
    frequencies: list = None  # the working ones, rising, or None where the level list is refused
    energy: int = None  # the figure of the plan, or None where it is not accepted
    fault: str = None  # why not, as one line


def read_boards(folder):
    """A board for each level list of a folder. Text that is no table is that board's fault alone."""
    found = tables.level_lists(folder)
    if not found:
        names = "levels.txt, levels.csv or levels.tbl, levels-NAME.txt, levels-NAME.csv or levels-NAME.tbl"
        raise SiteError(f"{folder}: no level list ({names}; --help says more)")
    return [read_board(folder, table) for table in found]


def read_board(folder, table):
    try:
        source = read_source(folder, table)
    except TableError as error:
        # Only text is no table. Of two texts the first names the board.
        return Board(os.path.basename(tables.text_files(folder, table)[0]), fault=str(error))
    return Board(os.path.basename(source.path), source)


def on_board(site, board):
    """The site with the level list of a board."""
    return site.adding({tables.LEVELS: board.source})


def with_frequencies(site, board):
    """The board with its working frequencies, or with the refusal of its level list or of the highest level for it."""
    if board.fault:
        return board
    try:
        return board._replace(frequencies=working_frequencies_of(board.source.data, site.parameters))
    except Refused as refusal:
        return board._replace(fault=explain(refusal, on_board(site, board)))


def with_plan(site, boards):
    """The site with its plan and price list, and the board that these were made for or None.

    They are those that stand in the folder. Where neither does, they are made for the first board whose level list is read, and
    written nowhere. Where there is no such board, the site stays without a plan.
    """
    planned = read_plan(site)
    if not all(is_missing(planned.sources[table]) for table in tables.PLAN_TABLES):
        return planned, None
    first = next((board for board in boards if board.frequencies), None)
    return (site, None) if first is None else (plan_for(site, first), first)


def plan_for(site, board):
    """The site with a plan that is made for a board. What is said of the plan says so, since there is no file to name."""
    lent = on_board(site, board)
    with explained(lent):
        planned = plan_tables(*lent.arguments(tables.LENT_TO_PLAN))
    return site.adding(
        {
            tables.PLAN: Source(f"the plan for {board.file}", planned.plan_bytes),
            tables.PRICES: Source(f"the prices for {board.file}", planned.price_bytes),
        }
    )


def checked(site, board):
    """The board with the energy figure of the site's plan, or with the check's refusal. A board whose level list is not read
    stays as it is."""
    if board.fault:
        return board
    lent = on_board(site, board)
    try:
        return board._replace(energy=check_tables(*lent.arguments(tables.LENT_TO_CHECK)))
    except Refused as refusal:
        return board._replace(fault=f"{board.file}: {explain(refusal, lent)}")
