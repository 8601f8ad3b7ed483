"""Says which boards one plan serves, with the energy figure of each."""

from .. import tables
from ..boards import checked, read_boards, with_frequencies, with_plan
from ..sites import alterations, explained, lay_out, read_work
from .folders import LISTS, on_sites, parser_of
from .pages import columns, counted, page_of
from .parameters import add_parameters, parameters_of

USAGE = ("boards DIR...", "check one plan for several boards")

SEVERAL = """

Each board has a level list: levels.txt, levels.csv or levels.tbl for one of them, and for each further
one levels-NAME.txt, levels-NAME.csv or levels-NAME.tbl, with any NAME. All have the same jobs and marks."""

LEAST = "On a board that it serves, no schedule that meets all deadlines needs less energy."
ALIKE = "Boards with the same working frequencies take the same plans with the same prices."


def run(arguments, prepare):
    parser = parser_of(
        "boards",
        "Says of each site which of its boards one plan serves: those for which the check accepts it with its\n"
        "prices, so that no schedule that meets all deadlines needs less energy there. Printed are the working\n"
        "frequencies of each board and the energy figure of the plan on it, or why the plan is refused there.\n"
        "\n"
        "The plan is that of plan.tbl and prices.tbl. Where neither is there, it is made for the first board\n"
        "whose level list can be read, as plan makes it; no file is written.\n"
        "\n"
        "Boards of one type differ in voltage, and may differ in what idling draws. A level works unless a mix\n"
        "of others costs no more. Boards with the same working frequencies take the same plans with the same\n"
        "prices. With other working frequencies a plan may be refused, and that board is to be planned for\n"
        "itself. A highest level is that of every board, and a board with fewer running levels refuses it." + SEVERAL + LISTS,
        several=True,
    )
    options = add_parameters(parser).parse_args(arguments)
    folders = options.folders

    def work(folder):
        site, boards = read_work(folder, parameters_of(options)), read_boards(folder)
        prepare()
        with explained(site):
            site = lay_out(site)
        boards = [with_frequencies(site, board) for board in boards]
        site, first = with_plan(site, boards)
        boards = [checked(site, board) for board in boards]
        between_sites = "\n" if len(folders) > 1 else ""
        # Faults are a part of the page.
        return page(site, boards, first) + between_sites, "" if any(board.fault for board in boards) else None

    return on_sites(folders, work)


def page(site, boards, first):
    """What is printed of a site. The plan is that of its folder, or was made for the first board."""
    parts = [about_plan(site, boards, first), about_boards(boards), about_service(site, boards)]
    if some_are_alike(boards):
        parts.append([ALIKE])
    return page_of(parts)


def about_plan(site, boards, first):
    if tables.PLAN not in site.sources:
        plan = "there is no plan"
    elif first is None:
        plan = "the plan is that of plan.tbl and prices.tbl"
    else:
        plan = f"the plan is made for {first.file}, since there is no plan.tbl"
    lines = [f"{site.folder}: {counted(len(boards), 'board', 'boards')}; {plan}"]
    if site.multiple is not None:
        lines.append(f"The figures are of one round, which repeats every {counted(site.multiple, 'tick', 'ticks')}.")
    altered = about_parameters(site, boards)
    return [*lines, altered] if altered else lines


def about_parameters(site, boards):
    """What the parameters alter on the board where that is most: a highest level may be the last one of some boards."""
    found = [alterations(site.parameters, board.source.data) for board in boards if board.frequencies]
    return max(found, key=len, default="")


def about_boards(boards):
    rows = [[board.file, about_frequencies(board), about_energy(board)] for board in boards]
    return columns(["level list", "working frequencies", "energy figure"], rows, texts=2)


def about_frequencies(board):
    return "-" if board.frequencies is None else " ".join(f"{frequency:,}" for frequency in board.frequencies)


def about_energy(board):
    if board.energy is not None:
        return board.energy
    return "no table" if board.source is None else "refused"


def about_service(site, boards):
    """How many boards the plan serves, and under that why it does not serve the others."""
    served = sum(board.energy is not None for board in boards)
    faults = [f"  {board.fault}" for board in boards if board.fault]
    if tables.PLAN not in site.sources:
        wanted = "" if site.parameters.highest is None else " and has so many running levels"
        return [f"No level list can be read{wanted}, so no plan can be made.", *faults]
    return [f"{service(served, len(boards))}{f' {LEAST}' if served else ''}", *faults]


def service(served, count):
    if count == 1:
        return "The plan serves the board." if served else "The plan does not serve the board."
    if served == count:
        return f"One plan serves all {count:,} boards."
    return f"The plan serves {f'{served:,}' if served else 'none'} of {count:,} boards."


def some_are_alike(boards):
    """Whether two boards have the same working frequencies."""
    found = [tuple(board.frequencies) for board in boards if board.frequencies]
    return len(set(found)) < len(found)
