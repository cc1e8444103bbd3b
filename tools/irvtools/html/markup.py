"""Turns text into markup, and escapes the rest."""

from __future__ import annotations

from html import escape
from typing import Iterable


def text(word: object) -> str:
    """Returns any text as markup that shows it."""
    return escape(str(word), quote=True)


def tag(name: str, content: str = "", **attributes: object) -> str:
    """Returns an element; `content` is markup. In attribute names a final `_` is dropped, and an
    inner one becomes a hyphen."""
    words = "".join(f' {key.rstrip("_").replace("_", "-")}="{text(value)}"'
                    for key, value in attributes.items() if value is not None)
    return f"<{name}{words}>{content}</{name}>"


def code(word: object) -> str:
    """Returns a text in monospace."""
    return tag("code", text(word))


def table(head: list[str], rows: Iterable[Iterable[str | tuple[str, str]]],
          class_: str | None = None) -> str:
    """Returns a table of texts. A pair of a class and markup is used unchanged. The table scrolls
    by itself on a narrow screen."""
    def cell(name, what):
        if isinstance(what, tuple):
            return tag(name, what[1], class_=what[0] or None)
        return tag(name, text(what))
    lines = [tag("tr", "".join(cell("th", word) for word in head))] if head else []
    lines += [tag("tr", "".join(cell("td", word) for word in row)) for row in rows]
    return tag("table", "\n".join(lines), class_=class_)
