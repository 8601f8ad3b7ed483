"""Least-energy clock plans, over the proved archive.

    >>> import ramyearly
    >>> ramyearly.plan(levels=[(2, 10), (4, 20)], jobs=[(0, 4, 6), (2, 3, 4)]).energy
    2200
    >>> ramyearly.plan(levels=[(2, 10), (4, 20)], jobs=[(0, 4, 6), (2, 3, 4)], marks=[1]).spans
    [(0, 1), (1, 2), (2, 3), (3, 4)]
    >>> ramyearly.fits(levels=[(2, 10), (4, 20)], jobs=[(0, 4, 6), (2, 3, 4)], plan=(3, [(0, 0, 6), (1, 1, 4)]))
    3400
    >>> ramyearly.plan(levels=[(2, 10), (4, 20)], jobs=[(0, 4, 6), (2, 6, 4)], free=1, margin=10).spans
    [(0, 2), (2, 3), (3, 5)]
    >>> ramyearly.nearest(levels=[(2, 10), (4, 20)], jobs=[(0, 4, 6), (2, 3, 4)])
    [(1, 0), (0, 6)]

plan, check, fits, order, touching, nearest, setting, spare, rounds and working_frequencies take plain values and answer plain
values; refusals are exceptions with number, place and words. Levels that begin with (0, 5) are those of a board that draws
5,000 while it idles. The first five take handover marks, which cut intervals, by name. A plan that fits meets all deadlines;
that no schedule needs less energy only check says, which takes prices. A plan that is accepted with its prices for one board is
accepted for every board with the same working frequencies. nearest lists each job with its room, the most cycles that can be
added to it alone with the set still fitting; the job nearest to trouble is first.

Three numbers may come with a site, and are given by name: highest, the highest running level allowed; free, the ticks kept
free before each deadline; and margin, the percent put on each job's cycles, rounded up. Each function but rounds takes those
that bear on its tables, and answers for the tables so altered. Left out they alter nothing.

Every answer is the archive's: the package decides nothing.
"""

from .errors import Trouble
from .operations import Ordered, Planned, Rounds, Setting, Touched
from .operations import check, fits, nearest, order, plan, rounds, setting, spare, touching, working_frequencies
from .refusals import Overfull, Refused

__all__ = [
    "Ordered",
    "Overfull",
    "Planned",
    "Refused",
    "Rounds",
    "Setting",
    "Touched",
    "Trouble",
    "check",
    "fits",
    "nearest",
    "order",
    "plan",
    "rounds",
    "setting",
    "spare",
    "touching",
    "working_frequencies",
]
__version__ = "1.0.0"
