"""Drawing in SVG. A drawing stands by itself: it needs no style and no file around it."""

from .markup import element, joined

WIDTH = 1160
MARGIN = 6  # between the edge and what stands next to it

FONT = "system-ui, -apple-system, 'Segoe UI', Roboto, 'Helvetica Neue', Arial, sans-serif"
INK = "#1b2631"
MUTED = "#4a5866"
GRID = "#d3dae1"
FRAME = "#6b7a89"
TINT = "#d6e4f0"
MIDDLE = "#8fb3d3"
STRONG = "#1f4e79"
ALARM = "#8c1d18"
HANDOVER = "#7a4300"

# The widest digits among the fonts above take 0.64 of the font's size; marks between them are narrow in all of them.
DIGIT_WIDTH = 0.64
MARK_WIDTH = 0.34

FITTING_SIZES = (11, 10, 9)
FITTING_ROOM = 2  # at both ends of a text together


def width_of(text, size):
    """At most how wide a number is."""
    return size * sum(MARK_WIDTH if character in ",. " else DIGIT_WIDTH for character in text)


class Drawing:
    """A picture that grows element by element."""

    def __init__(self, name, title, description):
        """The name sets its identifiers apart from those of other pictures on the same page."""
        self.name, self.title, self.description = name, title, description
        self.parts = []

    def add(self, name, /, *children, **attributes):
        self.parts.append(element(name, *children, **attributes))

    def line(self, x1, y1, x2, y2, **attributes):
        self.add("line", x1=x1, y1=y1, x2=x2, y2=y2, **{"stroke": GRID, **attributes})

    def text(self, x, y, text, **attributes):
        """Text, by the left end of its base line where no anchor is given."""
        self.add("text", text, x=x, y=y, **attributes)

    def box(self, x, y, width, height, *children, **attributes):
        self.add("rect", *children, x=x, y=y, width=width, height=height, **attributes)

    def fitting_text(self, x, y, width, text, **attributes):
        """Text in the middle of a width, in the largest size that fits. Nothing where none does."""
        for size in FITTING_SIZES:
            if width_of(text, size) + FITTING_ROOM <= width:
                self.text(x + width / 2, y, text, text_anchor="middle", font_size=size, **attributes)
                return

    def hatching(self, colour):
        """A filling of slanted lines."""
        name = f"{self.name}-hatching"
        stroke = element("path", d="M0 0V8", stroke=colour, stroke_width=2)
        pattern = element(
            "pattern",
            stroke,
            id=name,
            width=8,
            height=8,
            patternUnits="userSpaceOnUse",
            patternTransform="rotate(45)",
        )
        self.add("defs", pattern)
        return f"url(#{name})"

    def svg(self, height):
        """The whole picture, so high."""
        return element(
            "svg",
            element("title", self.title, id=f"{self.name}-title"),
            element("desc", self.description, id=f"{self.name}-description"),
            element("rect", width=WIDTH, height=height, fill="#ffffff"),
            joined(self.parts),
            xmlns="http://www.w3.org/2000/svg",
            viewBox=f"0 0 {WIDTH} {height}",
            width=WIDTH,
            height=height,
            role="img",
            aria_labelledby=f"{self.name}-title {self.name}-description",
            font_family=FONT,
            font_size=11,
            fill=INK,
            style="font-variant-numeric: tabular-nums",
        )


def hint(text):
    """What a pointer over an element shows."""
    return element("title", text)
