"""Documents 01 and 02 by their words, tick by tick and band by band, and sites at random."""

import itertools
from fractions import Fraction


def spans_of(jobs, marks=()):
    """The intervals: between the releases, the deadlines and the marks strictly between the first and the last of these, in
    order, each taken once."""
    times = {time for release, deadline, _ in jobs for time in (release, deadline)}
    bounds = sorted(times | {mark for mark in marks if times and min(times) < mark < max(times)})
    return list(zip(bounds, bounds[1:]))


def running_by_definition(levels):
    """The number of running levels: all entries but the idle entry."""
    return sum(frequency > 0 for frequency, _ in levels)


def altered_by_definition(levels, jobs, highest, free, margin):
    """The tables as the three parameters alter them. A percent of the cycles is rounded up, job by job."""
    kept = len(levels) - running_by_definition(levels) + highest
    more = [-(-Fraction(margin * cycles, 100) // 1) for _, _, cycles in jobs]
    return levels[:kept], [(release, deadline - free, cycles + m) for (release, deadline, cycles), m in zip(jobs, more)]


def refused_by_definition(levels, jobs, highest, free, margin):
    """For tables without a fault: number and place of refusal 35 or 36 of the three parameters, or 0 and 0."""
    if not (1 <= highest <= running_by_definition(levels) and free <= 1_000_000 and margin <= 100):
        return 35, 0
    for number, (release, deadline, cycles) in enumerate(altered_by_definition(levels, jobs, highest, free, margin)[1]):
        if deadline <= release or cycles > 1_000_000_000:
            return 36, number
    return 0, 0


def touched_by_definition(jobs, steps, start, end, marks=()):
    """What touches a span, tick by tick."""
    span, spans = set(range(start, end)), spans_of(jobs, marks)
    windows = [set(range(release, deadline)) for release, deadline, _ in jobs]
    return (
        [number for number, window in enumerate(windows) if window & span],
        [number for number, window in enumerate(windows) if window <= span],
        sorted(step for step in steps if set(range(*spans[step[0]])) & span),
        spans,
        min((deadline for _, deadline, _ in jobs if deadline >= start), default=None),
    )


def overfull_by_definition(levels, jobs):
    """The earliest window, from a release to a later deadline, whose own jobs need more than the top frequency gives, with its spare;
    or None where the set fits."""
    for start in sorted({release for release, _, _ in jobs}):
        for end in sorted({deadline for _, deadline, _ in jobs if deadline > start}):
            need = sum(cycles for release, deadline, cycles in jobs if start <= release and deadline <= end)
            spare = (end - start) * levels[-1][0] - need
            if spare < 0:
                return start, end, spare
    return None


def lengthened(jobs, number, added):
    """The jobs with so many cycles added to one of them."""
    return [(*job[:2], job[2] + added * (place == number)) for place, job in enumerate(jobs)]


def nearest_by_definition(levels, jobs):
    """The jobs of a fitting set, each with the most cycles that can be added to it, one by one, with the set still fitting;
    smallest first, and of equal ones the lowest number."""
    rooms = []
    for number in range(len(jobs)):
        added = 0
        while overfull_by_definition(levels, lengthened(jobs, number, added + 1)) is None:
            added += 1
        rooms.append((added, number))
    return [(number, room) for room, number in sorted(rooms)]


def random_jobs(draw):
    jobs = []
    for _ in range(draw.randrange(9)):
        release = draw.randrange(20)
        jobs.append((release, release + draw.randint(1, 20), draw.randint(1, 60)))
    return jobs


def random_steps(draw, jobs, marks=()):
    """Any steps of a plan that 15 to 18 let pass. They need not add to the jobs' cycles."""
    cells = itertools.product(enumerate(spans_of(jobs, marks)), enumerate(jobs))
    steps = [
        (interval, number, draw.randint(1, cycles))
        for (interval, (start, end)), (number, (release, deadline, cycles)) in cells
        if release <= start and end <= deadline and draw.random() < 0.5
    ]
    return draw.sample(steps, len(steps))


def plan_by_hand(draw, jobs, marks=()):
    """All cycles of each job, in any of the intervals where it is open, however many these may take."""
    steps = []
    for number, (release, deadline, cycles) in enumerate(jobs):
        places = [place for place, (start, end) in enumerate(spans_of(jobs, marks)) if release <= start and end <= deadline]
        # Cuts at random places leave some parts empty, which are no steps.
        cuts = sorted(draw.randint(0, cycles) for _ in places[1:])
        parts = [after - before for before, after in zip([0, *cuts], [*cuts, cycles])]
        steps += [(place, number, part) for place, part in zip(places, parts) if part]
    return draw.sample(steps, len(steps))


def fits_by_definition(levels, jobs, plan, marks=()):
    """For tables without a fault: number and place of the first of refusals 16 to 20 of a plan, given as intervals and steps, or
    0 and 0, and then its energy figure."""
    (intervals, steps), spans = plan, spans_of(jobs, marks)

    def is_open(interval, job):
        if interval >= len(spans) or job >= len(jobs):
            return False
        (start, end), (release, deadline, _) = spans[interval], jobs[job]
        return release <= start and end <= deadline

    if intervals != len(spans):
        return 16, 0, 0
    for place, (interval, job, cycles) in enumerate(steps):
        if not is_open(interval, job) or (interval, job) in [step[:2] for step in steps[:place]]:
            return 17, place, 0
        if not 1 <= cycles <= jobs[job][2]:
            return 18, place, 0
    for number, (_, _, wanted) in enumerate(jobs):
        if sum(cycles for _, job, cycles in steps if job == number) != wanted:
            return 19, number, 0
    loads = [sum(cycles for at, _, cycles in steps if at == interval) for interval in range(len(spans))]
    for interval, (start, end) in enumerate(spans):
        if loads[interval] > (end - start) * levels[-1][0]:
            return 20, interval, 0
    return 0, 0, energies_of_loads(levels, spans, loads)[0]


def working_by_definition(levels):
    """Idling and the levels that work, as frequency and power."""
    idle = 1000 * levels[0][1] if levels[0][0] == 0 else 0
    points = [(0, idle), *((f, f * v * v) for f, v in levels if f)]

    def drops(b):
        lower, higher = [a for a in points if a < b], [c for c in points if c > b]
        return any((b[1] - a[1]) * (c[0] - a[0]) >= (c[1] - a[1]) * (b[0] - a[0]) for a in lower for c in higher)

    return [point for point in points if not drops(point)]


def energies_by_definition(levels, planned):
    """The figure and the exact energy of a plan, by band and over all intervals."""
    return energies_of_loads(levels, planned.spans, [sum(shares) for shares in planned.shares])


def energies_of_loads(levels, spans, loads):
    """The figure and the exact energy of so many cycles in each interval."""
    points = working_by_definition(levels)
    lengths = [end - start for start, end in spans]
    figure = exact = sum(lengths) * points[0][1]
    for (low, less), (high, more) in zip(points, points[1:]):
        within = zip(lengths, loads)
        cycles = sum(min(max(load - length * low, 0), length * (high - low)) for length, load in within)
        exact += Fraction(cycles * (more - less), high - low)
        figure += cycles * (more - less) // (high - low)
    return figure, exact


def random_levels(draw, running):
    """So many levels with an idle entry before them, whose draw is as large as it may be or smaller."""
    frequencies = sorted(draw.sample(range(1, 1001), running))
    levels = list(zip(frequencies, sorted(draw.randint(1, 500) for _ in frequencies)))
    most = min((levels[0][0] * levels[0][1] ** 2 - 1) // 1000, 65535)
    return [(0, draw.choice((0, most, draw.randint(0, most)))), *levels]
