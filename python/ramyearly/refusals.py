"""Refusals as exceptions: which one the archive answered, at which place, and why."""

from . import tables
from .calls import altered, inside
from .reasons import listed, reason


class Refused(Exception):
    """A refusal: its number, its place, and words; the table that it is about and, where it names one, the entry."""

    def __init__(self, number, place, table, entry, words):
        super().__init__(number, place)
        self.number, self.place, self.table, self.entry, self.words = number, place, table, entry, words

    def reference(self):
        noun = PLACES.get(self.number)
        # 28 names an entry, or the table as a whole.
        named = noun and (noun != "entry" or self.entry is not None)
        return f"refusal {self.number}" + (f", {noun} {self.place}" if named else "")

    def __str__(self):
        about = f"{self.table.name}: " if self.table else ""
        return f"{about}{self.words} ({self.reference()})"


class Overfull(Refused):
    """Refusal 11: the earliest overfull window, its spare, and the numbers of its own jobs."""

    def __init__(self, start, end, spare, inside, said=""):
        more = f"{-spare} cycle{'s' if spare < -1 else ''} more"
        words = f"overfull: from {start} to {end} {own_jobs(inside)} {more} than the top frequency gives{said}"
        super().__init__(11, 0, tables.JOBS, None, words)
        self.start, self.end, self.spare, self.inside = start, end, spare, inside

    def reference(self):
        return f"refusal 11, window {self.start} to {self.end}, spare {self.spare}"


def own_jobs(inside):
    return f"job {inside[0]} needs" if len(inside) == 1 else f"jobs {listed(inside)} need"


# What the place of a refusal counts, where it has one.
PLACES = {
    **dict.fromkeys((4, 5, 9, 10, 28, 32), "entry"),
    **dict.fromkeys((12, 13, 14), "length wanted"),
    **dict.fromkeys((17, 18, 24), "step"),
    **dict.fromkeys((20, 22, 23), "interval"),
    **dict.fromkeys((19, 36), "job"),
}
# The refusals beside 11 that speak of levels, deadlines or cycles as the parameters have altered them.
OF_ALTERED_TABLES = (16, 17, 18, 19, 20, 22, 23, 24, 26)


def refused(number, place, call):
    """The exception for a refusal other than 11."""
    table, says, find_entry = reason(number, call)
    said = ""
    if number in OF_ALTERED_TABLES:
        call, said = altered(call), call.parameters.said(call.levels)
    entry = find_entry(call, place)
    return Refused(number, place, table, entry, says(call, place if entry is None else entry) + said)


def overfull(answer, call):
    """The exception for refusal 11."""
    own = inside(altered(call), answer.start, answer.end)
    return Overfull(answer.start, answer.end, answer.spare, own, call.parameters.said(call.levels))
