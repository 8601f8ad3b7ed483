"""What the verbs that answer in words have in common: pages, counts and tables."""

import os

from .. import tables
from ..tables import entries_of


def page_of(parts):
    """Parts, each a list of lines, with an empty line between them."""
    return "\n".join("".join(f"{line}\n" for line in part) for part in parts)


def counted(number, one, more):
    return f"{number:,} {one if number == 1 else more}"


def job_table(source, numbers, more=()):
    """The lines of a table of the jobs with these numbers. What parameters have altered stands there as it was given too, then
    further columns, as name and entries by job, and last the line of each where the file is text."""
    jobs = entries_of(source.data, tables.JOBS)
    given_names, given = source.altered_columns(tables.JOBS)
    if source.lines is not None:
        more = [*more, (f"{os.path.basename(source.path)} line", source.lines)]
    names = ["job", "release", "deadline", "cycles", *(f"given {name}" for name in given_names), *(name for name, _ in more)]
    rows = [[job, *jobs[job], *given[job], *(entries[job] for _, entries in more)] for job in numbers]
    return columns(names, rows)


def columns(names, rows, texts=0):
    """The lines of a table: the names above the entries, each column as wide as its widest word. So many columns at the
    beginning are text and begin at their left; the others end at their right, as numbers do."""
    words = [names, *([written(entry) for entry in row] for row in rows)]
    widths = [max(map(len, column)) for column in zip(*words)]
    return ["  " + "  ".join(aligned(row, widths, texts)) for row in words]


def written(entry):
    return entry if isinstance(entry, str) else f"{entry:,}"


def aligned(row, widths, texts):
    """The words of a row, each as wide as its column."""
    for number, (word, width) in enumerate(zip(row, widths)):
        yield word.ljust(width) if number < texts else word.rjust(width)
