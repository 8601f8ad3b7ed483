"""Markup that is HTML and well-formed XML alike.

What is no Markup is escaped where it enters an element, so that no name of a folder and no word of a file can become
markup.
"""

import re

# XML has no place for controls and surrogates, and marks that turn the direction of text would garble the page.
NOT_SHOWN = re.compile(
    "[^\x20-\x7e\xa0-\u2029\u202f-\u2065\u206a-\ud7ff\ue000-\ufffd\U00010000-\U0010ffff]"
)
ESCAPES = {"&": "&amp;", "<": "&lt;", ">": "&gt;", '"': "&quot;", "'": "&#39;"}

# The elements of HTML that have no content and no closing tag.
VOID = {"br", "meta"}


class Markup(str):
    """Text that is markup already."""


def escaped(value):
    """A value as markup. What a page cannot show becomes a replacement mark."""
    if isinstance(value, Markup):
        return value
    shown = NOT_SHOWN.sub("\ufffd", str(value))
    return Markup("".join(ESCAPES.get(character, character) for character in shown))


def joined(parts):
    return Markup("".join(escaped(part) for part in parts))


def attribute(name, value):
    """One attribute. In a Python name a last '_' sets it apart from a keyword, and a '_' inside stands for '-'."""
    if isinstance(value, float):
        value = f"{value:.2f}".rstrip("0").rstrip(".")
    return f' {name.rstrip("_").replace("_", "-")}="{escaped(value)}"'


def element(name, /, *children, **attributes):
    """An element. An attribute that is None is left out."""
    start = name + "".join(attribute(key, value) for key, value in attributes.items() if value is not None)
    if name in VOID:
        return Markup(f"<{start}/>")
    return Markup(f"<{start}>{joined(children)}</{name}>")
