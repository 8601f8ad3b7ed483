"""A site's report: one page of HTML that needs no other file, no network and no script.

The page is a function of the site and of what planning it gave, so it is the same each time.
"""

from .. import tables
from ..calls import interval_spans
from ..errors import SiteError
from ..operations import nearest_of
from ..refusals import Overfull, Refused, own_jobs
from ..rooms import about_nearest, about_room
from ..sites import alterations, explain
from ..tables import entries_of
from . import figures, handovers, page_tables, pictures
from .markup import element, joined
from .page_parts import document, facts, folding, paragraph, picture, sections, verdict
from .timeline import scale
from .wording import counted, from_to, signed, thousands

MOST_ROWS = 20  # of one picture of jobs, so that it fits on a printed page


def page(title, site, outcome):
    """The report of a site. The outcome is a plan, a refusal, or the error that kept the tables from being read. With an
    error the site may be None. Where no table is refused, the page is about the tables that the site's parameters make."""
    if isinstance(outcome, SiteError):
        body = [verdict("Not read", outcome, alarm=True)]
    elif isinstance(outcome, Overfull):
        body = overfull_body(site.altered(), outcome)
    elif isinstance(outcome, Refused):
        body = refused_body(site, outcome)
    elif not outcome.spans:
        body = empty_body(site.altered())
    else:
        body = planned_body(site.altered(), outcome)
    return document(title, body)


ALTERED_WORDS = "The tables of the site are altered by its parameters, and all that stands here is about the altered ones. "


def parameter_parts(site, words=ALTERED_WORDS):
    """What the parameters alter, where they alter something, behind these words."""
    said = alterations(site.parameters, site.level_data())
    return [paragraph(words + said)] if said else []


# A plan.


def planned_body(site, planned):
    levels, jobs = site.data(tables.LEVELS), site.data(tables.JOBS)
    entries, level_list = entries_of(jobs, tables.JOBS), figures.level_list(levels)
    intervals, windows = figures.intervals(levels, planned), figures.tightest(levels, jobs)
    time = scale(entries, planned.spans, handovers.marks_of(site))
    steps = page_tables.step_table(planned.steps, intervals)
    return [
        verdict("Planned", planned_sentence(site)),
        *parameter_parts(site),
        planned_facts(site, planned, time, windows[0]),
        sections(
            ("jobs", "Jobs", job_pictures(time, entries, JOB_WORDS, intervals=intervals)),
            ("clock", "Clock", clock_picture(time, intervals, level_list)),
            ("load", "Load", load_picture(time, intervals)),
            ("windows", "Tightest windows", page_tables.window_table(windows)),
            ("nearest", "Nearest to trouble", nearest_content(site, entries)),
            ("intervals", "Intervals", page_tables.interval_table(intervals)),
            ("steps", "Steps", folding(f"The {counted(len(planned.steps), 'step')} of the plan", steps)),
            *site_sections(site, time, entries, level_list, intervals),
            **kinds_of(site),
            with_room=True,
        ),
    ]


def kinds_of(site):
    """What a site has beyond jobs and levels, as the sections take it."""
    marks = len(handovers.marks_of(site)) > 0
    return {"with_tasks": has_tasks(site), "with_draw": idle_power(site) > 0, "with_marks": marks}


def has_tasks(site):
    return site.multiple is not None


def idle_power(site):
    return figures.idle_power(site.data(tables.LEVELS))


def planned_sentence(site):
    sentence = "Every deadline is met, and no schedule does it with less energy."
    if not has_tasks(site):
        return sentence
    return (
        f"{sentence} The round repeats every {counted(site.multiple, 'tick')}: the plan may be repeated any number of times, "
        "and stays a least one for the repeated jobs."
    )


def planned_facts(site, planned, time, window):
    return facts(
        ("Energy figure", thousands(planned.energy), *(["of one round"] if has_tasks(site) else [])),
        *draw_facts(site, time),
        time_fact(site, time),
        job_fact(site),
        *handovers.mark_facts(site, time),
        ("Intervals", thousands(len(planned.spans))),
        ("Steps", thousands(len(planned.steps))),
        *level_facts(site),
        ("Least spare", counted(window.spare, "cycle"), f"from {from_to(window.start, window.end)}"),
    )


def draw_facts(site, time):
    """What idling draws, where it draws power: in the time of the plan and, where rounds repeat, between two of them."""
    power, (start, end) = idle_power(site), span(time)
    if power == 0:
        return []
    found = [("Idle draw", thousands(power * (end - start)), f"{thousands(power)} in each tick, part of the figure")]
    between = site.multiple - (end - start) if has_tasks(site) else 0
    if between:
        remark = f"{counted(between, 'tick')}, not part of the figure"
        found.append(("Idle draw between rounds", thousands(power * between), remark))
    return found


def span(time):
    """The earliest release and the latest deadline."""
    return time.bounds[0], time.bounds[-1]


def time_fact(site, time):
    start, end = span(time)
    repeats = f", repeats every {thousands(site.multiple)}" if has_tasks(site) else ""
    return "Time", from_to(start, end), counted(end - start, "tick") + repeats


def job_fact(site, *remarks):
    if has_tasks(site):
        count = tables.sizes_of(site.data(tables.TASKS), tables.TASKS)[0]
        remarks = (f"from {counted(count, 'task')}", *remarks)
    count = tables.sizes_of(site.data(tables.JOBS), tables.JOBS)[0]
    return "Jobs", thousands(count), *([", ".join(remarks)] if remarks else [])


def level_facts(site):
    levels, given = site.data(tables.LEVELS), site.level_data()
    level_list = figures.level_list(levels)
    unused = sum(not level.works for level in level_list)
    shut_out = tables.count_running(given) - len(level_list)
    remarks = [*([f"{unused} never used"] if unused else []), *([f"{shut_out} more not allowed"] if shut_out else [])]
    remark = [", ".join(remarks)] if remarks else []
    top = thousands(figures.top_frequency(levels))
    return ("Levels", len(level_list), *remark), ("Top frequency", top, "cycles per tick")


JOB_WORDS = (
    "An outlined bar is a job's window; at the left stand its cycles in all. A shaded cell is an interval in which it "
    "runs, with its cycles there where they fit (the job list has them all). The dark strip in the cell is when it runs: "
    "the jobs of an interval go in order of number."
)


def job_pictures(time, entries, words, **shown):
    """The picture of the jobs, in several parts where there are many."""
    count = -(-len(entries) // MOST_ROWS)
    bounds = [len(entries) * part // count for part in range(count + 1)]
    found = []
    for part, (first, end) in enumerate(zip(bounds, bounds[1:])):
        label = f"Jobs {first} to {end - 1}" if count > 1 else "Jobs"
        svg = pictures.jobs(time, entries, rows=range(first, end), name=f"jobs-{part}", **shown)
        caption = f"{words} {time_words(time)}" if part == count - 1 else f"{label}."
        found.append(picture(svg, label, caption))
    return joined(found)


def clock_picture(time, intervals, level_list):
    words = (
        "The frequency in cycles per tick. In each interval the clock is on the upper one of two neighbouring levels "
        "first, then on the lower one. "
    )
    if not all(level.works for level in level_list):
        words += "A level in brackets is never used: a mix of others costs no more. "
    svg = pictures.clock(time, intervals, level_list)
    return picture(svg, "Clock", words + time_words(time))


def load_picture(time, intervals):
    words = (
        "A bar up to 100 is the top frequency all the time; it is then filled dark. Above each bar stands the load in "
        "percent, under it the band that the load ends in and the price, where they fit (the intervals have them all). "
    )
    return picture(pictures.load(time, intervals), "Load", words + time_words(time))


def time_words(time):
    scaled = (
        "Time is not to scale: so that the shortest intervals can be seen, each interval gets a part of its width for its "
        "length and an equal part for itself."
    )
    return ("Time is to scale." if time.to_scale else scaled) + handovers.words_for(time)


def nearest_content(site, entries):
    """Which job is nearest to trouble, and the room of each."""
    rooms = nearest_of(site.data(tables.LEVELS), site.data(tables.JOBS))
    nearest = about_nearest(rooms)
    said = f"{nearest[0].upper()}{nearest[1:]}.", " ".join(about_room(site))
    return joined([*map(paragraph, said), page_tables.room_table(site.sources[tables.JOBS], entries, rooms)])


def site_sections(site, time, entries, level_list, intervals=()):
    """The tables of a site that has no fault."""
    jobs, levels = site.sources[tables.JOBS], site.sources[tables.LEVELS]
    tasks = [("task-list", "Task list", task_content(site))] if has_tasks(site) else []
    return [
        *tasks,
        ("job-list", "Job list", page_tables.job_table(jobs, entries, intervals)),
        *mark_sections(site, entries, time),
        ("level-list", "Level list", page_tables.level_table(levels, level_list, idle_power(site))),
    ]


def mark_sections(site, entries, time=None):
    """The mark list of a site that has marks, with what each of them does."""
    effects = [handovers.effect(mark, entries, time) for mark in handovers.marks_of(site)]
    return [("mark-list", "Mark list", page_tables.mark_table(site.sources[tables.MARKS], effects))] if effects else []


def task_content(site):
    words = (
        f"The jobs below are those of one round, and come again every {counted(site.multiple, 'tick')}, the least common "
        "multiple of the periods."
    )
    return joined([paragraph(words), page_tables.task_table(site.sources[tables.TASKS], site.sources[tables.JOBS])])


# No plan.


def overfull_body(site, refusal):
    levels, jobs = site.data(tables.LEVELS), site.data(tables.JOBS)
    entries, level_list = entries_of(jobs, tables.JOBS), figures.level_list(levels)
    window = figures.window(levels, jobs, refusal.start, refusal.end)
    time = scale(entries, interval_spans(jobs, site.data(tables.MARKS)), handovers.marks_of(site))
    own = page_tables.own_job_table(site.sources[tables.JOBS], entries, refusal.inside)
    words = (
        "An outlined bar is a job's window; at the left stand its cycles. The hatched stretch is the overfull window; its "
        "own jobs have a thick outline and a sign before their number."
    )
    return [
        verdict("Overfull", overfull_sentence(window), alarm=True),
        *parameter_parts(site),
        overfull_facts(site, window, time),
        sections(
            ("overfull", "The overfull window", joined([overfull_words(window, explain(refusal, site)), own])),
            ("jobs", "Jobs", job_pictures(time, entries, words, overfull=refusal)),
            ("windows", "Tightest windows", page_tables.window_table(figures.tightest(levels, jobs))),
            *site_sections(site, time, entries, level_list),
            **kinds_of(site),
        ),
    ]


def overfull_sentence(window):
    more = f"{counted(-window.spare, 'cycle')} more than the top frequency gives"
    return f"No schedule meets every deadline: from {from_to(window.start, window.end)} {own_jobs(window.inside)} {more}."


def overfull_facts(site, window, time):
    return facts(
        ("Overfull window", from_to(window.start, window.end), counted(window.end - window.start, "tick")),
        ("Its jobs need", counted(window.need, "cycle")),
        ("The top frequency gives", counted(window.capacity, "cycle")),
        ("Spare", signed(window.spare), "cycles"),
        time_fact(site, time),
        job_fact(site, f"{len(window.inside)} inside the window"),
        *handovers.mark_facts(site, time),
        *level_facts(site),
    )


def overfull_words(window, explanation):
    return joined(
        [
            paragraph(
                f"At least {counted(-window.spare, 'cycle')} must leave this window: fewer cycles in one of its jobs, a "
                "later deadline, or an earlier release. It is the earliest overfull window; the tightest windows, below, "
                "show whether others have a spare below 0 too."
            ),
            paragraph(explanation, look="note"),
        ]
    )


def refused_body(site, refusal):
    parts = [verdict("Refused", f"{explain(refusal, site)}.", alarm=True)]
    if refusal.number == 36:
        parts += parameter_parts(site, "The site has parameters. ")
    if refusal.entry is not None:
        source = site.sources[refusal.table]
        entries = entries_of(source.data, refusal.table)
        parts.append(element("h2", "The refused entry"))
        parts.append(page_tables.refused_table(source, refusal.table, entries, refusal.entry))
    return [*parts, element("h2", "Files"), page_tables.source_table(site)]


def empty_body(site):
    level_list, power = figures.level_list(site.data(tables.LEVELS)), idle_power(site)
    kind = tables.TASKS if has_tasks(site) else tables.JOBS
    marks = [part for _, heading, content in mark_sections(site, []) for part in (element("h2", heading), content)]
    # The figure has what idling draws from the earliest release on, and there is none.
    idles = "no time is planned" if power else "the clock idles"
    return [
        verdict("Nothing to run", f"The {kind.entry} list is empty: {idles}, and the energy figure is 0."),
        *parameter_parts(site),
        facts(("Energy figure", 0), ("Jobs", 0), *level_facts(site)),
        *marks,
        element("h2", "Level list"),
        page_tables.level_table(site.sources[tables.LEVELS], level_list, power),
        element("h2", "Files"),
        page_tables.source_table(site),
    ]
