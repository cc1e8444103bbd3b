"""The columns of both CSV files: headings, members of a configuration, and how cells are written
and read.
"""

from __future__ import annotations

from irvtools.csvtables import cells
from irvtools.rules.schema_rules import CHOICES, LINEAR, POINT, ROUTE, SECOND
from irvtools.html.control_table import heading

SECTIONS, ROUTES = "sections.csv", "routes.csv"
COMMENT = "#"           # a comment's heading begins with it
LABEL = "label"         # column of the label of a section or route on screen and paper
BOARD_LABELS = {"down": "board down label", "up": "board up label"}
LABELS = {SECTIONS: (LABEL, *BOARD_LABELS.values()), ROUTES: (LABEL,)}
# Member for comments and labels, which no configuration has: an entry's texts by heading, and all
# headings of each file.
EXTRA = "#"


class Column:
    """A column: its heading, its member, its writer and its reader of cells."""

    def __init__(self, member, write, read):
        self.member, self.write, self.read = member, write, read
        self.heading = heading(member)


def word_text(word):
    """Returns a cell with a word, or an empty one for null."""
    return cells.kept(word or "")


def column(member, kind):
    """Returns the column of a member, by its kind in the schema."""
    if member in CHOICES:
        return Column(member, word_text, cells.one_of(CHOICES[member]))
    write, read = {
        "a text": (word_text, cells.needed_name),
        "a text or null": (word_text, cells.name_or_none),
        "an array of texts": (cells.list_text, cells.names),
        "an array of points": (cells.points_text, cells.points),
    }[kind]
    return Column(member, write, read)


def columns(members):
    """Returns the columns of these members, in order."""
    return [column(member, kind) for member, kind in members.items()]


OF_SECTIONS = columns({
    **{member: LINEAR[member] for member in ("name", "kind", "down", "up", "board_down", "board_up")},
    **{member: POINT[member] for member in ("stem", "plus", "minus", "faces")}})
MEMBERS = {"linear": LINEAR, "point": POINT}    # those of each kind of section
OF_ROUTES = columns(ROUTE)
PROTECTING = columns(SECOND)                    # additional ones of a version 2 route


def of_routes(version: int) -> list[Column]:
    """Returns the route columns of a version."""
    return OF_ROUTES + (PROTECTING if version == 2 else [])


def of_section(kind: str) -> list[Column]:
    """Returns the columns of a kind of section."""
    return [one for one in OF_SECTIONS if one.member in MEMBERS[kind]]
