"""The interlocking table as a printable sheet: a row per route, a column per entry, in the words of
the CSV files."""

from __future__ import annotations

from typing import TYPE_CHECKING, Any, Collection, Iterable

from irvtools.rules.schema_rules import route_members
from irvtools.html.markup import tag, text
from irvtools.model.phrases import list_words

if TYPE_CHECKING:
    from irvtools.html.report import Report

LONGEST_CELL = 6000     # characters of a cell
SHORT = 16              # longer names may break across lines


def sheet_part(page: Report) -> None:
    """Adds the interlocking table to the page."""
    if not page.plant.routes:
        return
    known = route_members(page.plant.version)
    rows = [row(f"{route.number} {page.labels.routes.get(route.name, '')}".strip(), route.member, known)
            for route in page.plant.routes]
    # The heading is on the sheet's own wide paper.
    page.add(tag("div", page.titled("Interlocking "
                                    "table", "table") + sheet("no.", known, rows), class_="wide"))


def heading(member: str) -> str:
    """Returns the heading of an entry's column."""
    return member.replace("_", " ")


def sheet(first: str, known: Iterable[str], rows: Iterable[str]) -> str:
    """Returns a sheet of rows; `first` is the heading of their first cells."""
    head = tag("thead", tag("tr", "".join(
        tag("th", text(word)) for word in (first, *map(heading, known)))))
    return tag("table", head + tag("tbody", "\n".join(rows)), class_="sheet")


def row(first: str, route: dict[str, Any], known: Iterable[str], marked: Collection[str] = (),
        class_: str | None = None) -> str:
    """Returns a row of the sheet, after the cell `first`, with some entries marked."""
    return tag("tr", tag("th", text(first)) + "".join(
        tag("td", cell(route.get(member)), class_="differs" if member in marked else None)
        for member in known), class_=class_)


def cell(said):
    """Returns an entry's cell."""
    words = list_words(said) if isinstance(said, list) else [said or ""]
    line = " ".join(words)
    if len(line) > LONGEST_CELL:
        return text(line[:LONGEST_CELL] + " … (cut)")
    return " ".join(map(whole, words))


def whole(word):
    """Returns a short name that isn't broken at hyphens."""
    is_whole = "-" in word[:-1] and len(word) <= SHORT
    return tag("span", text(word), class_="whole") if is_whole else text(word)
