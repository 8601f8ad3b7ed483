"""What the pictures and tables of a report show.

Every figure is an answer of the archive or a sum of its answers: the plan and its prices, the setting of each interval,
and the spare of windows.
"""

from fractions import Fraction
from typing import NamedTuple

from .. import operations, tables
from ..calls import Call, inside
from ..tables import entries_of

MOST_WINDOWS = 10


class Run(NamedTuple):
    """A job's cycles in one interval, and from when to when they run there."""

    job: int
    cycles: int
    start: Fraction
    end: Fraction


class Interval(NamedTuple):
    """One interval of a plan. The clock is on the upper frequency first, then on the lower one; 0 is idling."""

    number: int
    start: int
    end: int
    load: int
    capacity: int  # what the top frequency gives
    price: int
    setting: operations.Setting
    shares: list  # the cycles of each job

    @property
    def ticks(self):
        return self.end - self.start

    @property
    def lower(self):
        return (self.load - self.setting.extra) // self.ticks

    @property
    def upper(self):
        return self.lower + self.setting.gap

    @property
    def upper_ticks(self):
        return Fraction(self.setting.extra, self.setting.gap) if self.load else Fraction(0)

    @property
    def lower_ticks(self):
        return self.ticks - self.upper_ticks

    def moment(self, cycles):
        """When so many cycles of this interval have run. All that run are at most the load."""
        on_upper = self.upper * self.upper_ticks
        if cycles <= on_upper:
            return self.start + Fraction(cycles, self.upper)
        return self.start + self.upper_ticks + (cycles - on_upper) / self.lower

    def runs(self):
        """What runs here: the jobs go in order of number, each for its own cycles."""
        found, done = [], 0
        for job, cycles in enumerate(self.shares):
            if cycles:
                found.append(Run(job, cycles, self.moment(done), self.moment(done + cycles)))
                done += cycles
        return found


class Window(NamedTuple):
    """A window with jobs of its own."""

    start: int
    end: int
    capacity: int
    spare: int
    inside: list

    @property
    def need(self):
        return self.capacity - self.spare


class Level(NamedTuple):
    """A running level of the level list. One that does not work is never used, since it costs no less than a mix of
    others."""

    entry: int  # its place in the list, which may begin with the idle entry
    frequency: int
    voltage: int
    works: bool
    band: int  # of a level that works: the one that it tops
    price: Fraction  # of a cycle in that band


def capacity(levels, start, end):
    """What the top frequency gives in a window."""
    return operations.spare_of(levels, tables.NO_JOBS, start, end)


def top_frequency(levels):
    return operations.working_frequencies_of(levels)[-1]


def intervals(levels, planned):
    found = []
    for number, ((start, end), (_, price), shares) in enumerate(zip(planned.spans, planned.prices, planned.shares)):
        load = sum(shares)
        setting = operations.setting_of(levels, end - start, load)
        found.append(Interval(number, start, end, load, capacity(levels, start, end), price, setting, shares))
    return found


def window(levels, jobs, start, end):
    own = inside(Call(levels=levels, jobs=jobs), start, end)
    return Window(start, end, capacity(levels, start, end), operations.spare_of(levels, jobs, start, end), own)


def tightest(levels, jobs):
    """The windows with the least spare among those that have jobs of their own."""
    entries = entries_of(jobs, tables.JOBS)
    found = []
    for start in {release for release, _, _ in entries}:
        for end in {deadline for _, deadline, _ in entries if deadline > start}:
            spare = operations.spare_of(levels, jobs, start, end)
            if spare < capacity(levels, start, end):
                found.append((spare, end - start, start, end))
    return [window(levels, jobs, start, end) for _, _, start, end in sorted(found)[:MOST_WINDOWS]]


def running_levels(levels):
    """The number, frequency and voltage of each entry but the idle entry."""
    entries = entries_of(levels, tables.LEVELS)
    return [(number, *entry) for number, entry in enumerate(entries)][tables.first_running(entries) :]


def energy_of(levels, ticks, cycles):
    """The energy figure of one job alone."""
    return operations.plan_tables(levels, tables.to_bytes([(0, ticks, cycles)], tables.JOBS), tables.NO_MARKS).energy


def idle_power(levels):
    """What idling draws in a tick: what it costs to have a tick more for the cycles of one tick on the lowest level that
    works."""
    lowest = operations.working_frequencies_of(levels)[0]
    return energy_of(levels, 2, lowest) - energy_of(levels, 1, lowest)


def level_list(levels):
    """The running levels, with what the archive makes of them. One tick on a level that works costs what idling draws and
    what the bands up to its own cost."""
    found, below, working = [], idle_power(levels), operations.working_frequencies_of(levels)
    for entry, frequency, voltage in running_levels(levels):
        setting, works = operations.setting_of(levels, 1, frequency), frequency in working
        price = None
        if works:
            energy = energy_of(levels, 1, frequency)
            price = Fraction(energy - below, setting.gap)
            below = energy
        found.append(Level(entry, frequency, voltage, works, setting.band, price))
    return found
