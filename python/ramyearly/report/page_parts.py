"""The parts that pages of a report are put together from."""

from .markup import Markup, element, joined
from .page_style import STYLE

# The page may use its own style and nothing else.
POLICY = "default-src 'none'; style-src 'unsafe-inline'"

WINDOW_TERMS = (
    ("Window", "The time from a job's release up to its deadline. The job may run there, and may be interrupted."),
)
INTERVAL_TERMS = (
    ("Interval", "The time between two neighbouring releases or deadlines. The plan gives each interval its cycles."),
)
# Where there are marks.
MARK_TERMS = (
    (
        "Interval",
        "The time between two neighbouring releases, deadlines or handovers. The plan gives each interval its cycles.",
    ),
    ("Handover", "The tick of a mark, at which readers are docked and reload their plan. It makes no plan dearer."),
)
TERMS = (
    ("Load, capacity", "The cycles that run in an interval, and those that the top frequency gives there."),
    ("Band", "The step from one working level to the next, or from idling to the lowest. A load ends in one of them."),
    ("Price", "The number of the band that sets what a cycle costs in an interval. A job runs where it is smallest."),
    ("Spare", "What the top frequency gives in a window beyond the need of the jobs inside. Below 0 it is overfull."),
)
# Where there is a plan.
ROOM_TERMS = (
    (
        "Room",
        "The most cycles that can be added to a job alone with all deadlines still met: the least spare of all windows that it "
        "lies inside, its own among them.",
    ),
)
ROUNDED = (
    "It is rounded down for each band, so it is at most the exact energy, and less than the number of bands below it."
)
FIGURE_TERMS = (("Energy figure", f"Cycles times voltage squared, in hundredths of a volt. {ROUNDED}"),)
# Where idling draws power.
DRAW_TERMS = (
    (
        "Idle draw",
        "What the processor draws in each tick even where nothing runs. It is paid from the earliest release to the latest "
        "deadline.",
    ),
    (
        "Energy figure",
        f"The idle draw of all ticks, and beyond it each cycle at the price that the level list has for its band. {ROUNDED}",
    ),
)
TASK_TERMS = (
    ("Task", "Work that comes again. In each period it releases a job at its phase, with its deadline counted from there."),
    ("Round", "The least common multiple of the periods. The jobs of one round come again, at the same places, in the next."),
)


def document(title, body):
    """The whole page."""
    head = element(
        "head",
        element("meta", charset="utf-8"),
        element("meta", http_equiv="Content-Security-Policy", content=POLICY),
        element("meta", name="viewport", content="width=device-width, initial-scale=1"),
        element("title", f"Clock plan: {title}"),
        element("style", Markup(STYLE)),
    )
    main = element("main", element("p", "Clock plan of the site", class_="note kind"), element("h1", title), joined(body))
    text = element("html", head, element("body", main), lang="en", xmlns="http://www.w3.org/1999/xhtml")
    return f"<!DOCTYPE html>\n{text}\n"


def verdict(word, sentence, alarm=False):
    sign = "\u2715" if alarm else "\u2713"
    look = "verdict alarm" if alarm else "verdict"
    return element("p", element("b", f"{sign} {word}."), " ", sentence, class_=look)


def facts(*entries):
    """Facts as name, value and, where there is one, a remark."""
    found = []
    for name, value, *remark in entries:
        small = [element("small", said) for said in remark]
        found.append(element("div", element("dt", name), element("dd", value, *small)))
    return element("dl", *found, class_="facts")


def sections(*entries, with_tasks=False, with_draw=False, with_marks=False, with_room=False):
    """Sections as name, heading and content, with links to them before the first one."""
    meanings = WINDOW_TERMS + (MARK_TERMS if with_marks else INTERVAL_TERMS) + TERMS + (ROOM_TERMS if with_room else ())
    meanings += (DRAW_TERMS if with_draw else FIGURE_TERMS) + (TASK_TERMS if with_tasks else ())
    entries = [*entries, ("terms", "Words on this page", terms(meanings))]
    links = [element("a", heading, href=f"#{name}") for name, heading, _ in entries]
    found = [element("section", element("h2", heading), content, id=name) for name, heading, content in entries]
    return joined([element("nav", *links, aria_label="Sections"), *found])


def terms(meanings):
    entries = [element("div", element("dt", word), element("dd", meaning)) for word, meaning in meanings]
    return element("dl", *entries, class_="terms")


def paragraph(text, look=None):
    return element("p", text, class_=look)


def picture(svg, label, caption):
    """A picture in a box of its own, which scrolls where the page is narrower."""
    box = element("div", svg, class_="scroll", role="region", tabindex=0, aria_label=label)
    return element("figure", box, element("figcaption", caption))


def folding(summary, content):
    """Content that a reader can fold away. It is open at first, since a folded part may be missing in print."""
    return element("details", element("summary", summary), content, open="open")
