"""The three numbers that come with a site: how they are given, and how they are said."""

from typing import NamedTuple

from .tables import check_room, count_running


class Parameters(NamedTuple):
    """An operation works on the tables that these make of the ones given. As they stand here they alter nothing."""

    highest: int = None  # the highest running level allowed, counted from 1; None allows all of the level table
    free: int = 0  # the ticks kept free before each deadline
    margin: int = 0  # the percent put on the cycles of each job, rounded up job by job

    def allowed(self, levels):
        """How many of the running levels of this level table are allowed."""
        return count_running(levels) if self.highest is None else self.highest

    def altering(self, levels):
        """Those of them that alter something, by name. Without levels the highest is none of them."""
        found = {"free": self.free, "margin": self.margin}
        if self.allowed(levels) != count_running(levels):
            found = {"highest": self.highest, **found}
        return {name: number for name, number in found.items() if number}

    def said(self, levels):
        """Those that alter something, in words that follow others; nothing where there are none."""
        named = ", ".join(f"{name} {number}" for name, number in self.altering(levels).items())
        return f", with {named}" if named else ""


UNALTERED = Parameters()


def with_room(highest=None, free=0, margin=0):
    """The parameters, where each has room in 32 bits. A ValueError names one that has none."""
    return Parameters(
        highest if highest is None else check_room(highest, "highest", 32),
        check_room(free, "free", 32),
        check_room(margin, "margin", 32),
    )
