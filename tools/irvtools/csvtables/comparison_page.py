"""A comparison's page: its sentences, both plans with marked differences, and both route tables as
one printable sheet.
"""

import re

from irvtools.html import control_table
from irvtools.csvtables.comparing import CAME, CHANGED, RENAMED, WENT
from irvtools.trackplan.drawing import Drawing
from irvtools.rules.schema_rules import route_members
from irvtools.html.markup import tag, text
from irvtools.trackplan.marks import Marks
from irvtools.model.plant import Plant
from irvtools.html.control_table import row
from irvtools.html.style import document
from irvtools.trackplan.signs import legend

MOST_ROUTES = 24        # that have pictures
DRAWN = ("path", "overlap", "points")   # entries of a route that a picture shows
# Text in front of a row.
WORDS = {WENT: "went", CAME: "came", "old": "was", "new": "is"}
WORDS_OF_NETWORK = {WENT: "no route", CAME: "no way of the network", "old": "network", "new": "table"}
OWN = """
.sheet .differs{background:var(--own)}.sheet .old{color:var(--quiet)}
.side{break-inside:avoid}
@media print{@page{size:landscape;margin:12mm}}
"""


def with_own_ids(markup, side):
    """Returns a drawing's markup, with ids that differ from the other side's."""
    return re.sub(r'\b(id="|href="#)([^"]*)', rf"\g<1>\g<2>-{side}", markup)


class Side:
    """One of the two configurations on the page."""

    def __init__(self, title, value, word):
        self.title, self.word, self.value = title, word, value
        self.plant = Plant(value)
        self.drawing = Drawing(self.plant)

    def definitions(self):
        """Returns the definitions for its pictures."""
        return with_own_ids(self.drawing.definitions(), self.word)

    def plan(self, marks, title):
        """Returns its plan, with marks."""
        return tag("div", tag("h3", text(title))
                   + with_own_ids(self.drawing.plan(marks, title), self.word), class_="side")

    def board_name(self, x, direction):
        """Returns the name of the board on a section, or `None`."""
        b = self.plant.board_on.get((x, direction))
        return None if b is None else self.plant.boards[b].name

    def route_plan(self, number, word):
        """Returns the plan with a route's path."""
        route = self.plant.routes[number]
        marks = Marks(boards=[route.source, route.destination]).with_route(route)
        return self.plan(marks, f"{self.title}: route {route.name} {word}".rstrip())


class Picture:
    """The page of a comparison."""

    def __init__(self, comparison, old_title, new_title):
        self.comparison = comparison
        match = comparison.match
        self.words = WORDS_OF_NETWORK if comparison.is_of_network else WORDS
        self.old = Side(old_title, match.given_old, "old")
        self.new = Side(new_title, match.new, "new")

    def page(self):
        """Returns the page as a document."""
        title = f"{self.old.title} and {self.new.title}"
        lines = "".join(tag("li", text(line)) for line in self.comparison.lines())
        body = "\n".join([
            self.old.definitions() + self.new.definitions(),
            tag("h1", text("Comparison of two interlocking tables")), tag("p", text(title)),
            tag("h2", text("Differences")), tag("ul", lines),
            tag("h2", text("Both plans")), self.network_plan(self.old, "old"),
            self.network_plan(self.new, "new"), legend(),
            tag("p", text("The sections and boards that differ are marked. The plans are drawn from the "
                          "neighbours in the configurations. They are not to scale."), class_="small"),
            *self.route_plans(),
            tag("div", tag("h2", text("Interlocking tables")) + self.sheet(), class_="scroll")])
        foot = tag("p", text("By tools/csv, which is not proved."), class_="foot small")
        return document(f"{title}: irv", f"{body}\n{foot}", OWN)

    def network_plan(self, side, number):
        """Returns a side's plan with marked network differences. `number` is the attribute of a
        difference with this side's number."""
        sections = [getattr(one, number) for one in self.comparison.differences
                    if one.thing == "section" and getattr(one, number) is not None]
        pairs = self.comparison.match.sections
        if side is self.new:
            pairs = {y: x for x, y in pairs.items()}
        other = self.new if side is self.old else self.old
        boards = [b for b, board in enumerate(side.plant.boards)
                  if other.board_name(pairs.get(board.section), board.direction) != board.name]
        return side.plan(Marks(sections=dict.fromkeys(sections), boards=boards), side.title)

    def route_plans(self):
        """Returns the old and the new way of each route that differs."""
        routes = dict.fromkeys((one.old, one.new, one.what) for one in self.comparison.differences
                               if one.thing == "route" and one.what != RENAMED
                               and self.is_drawn(one.old, one.new))
        if not routes:
            return
        yield tag("h2", text("Paths of the routes that differ"))
        for old, new, what in list(routes)[:MOST_ROUTES]:
            for side, number in ((self.old, old), (self.new, new)):
                if number is not None:
                    yield side.route_plan(number, "" if what == CHANGED else self.words[what])
        if len(routes) > MOST_ROUTES:
            yield tag("p", text(f"{len(routes) - MOST_ROUTES} more have no picture."))

    def is_drawn(self, old, new):
        """Returns whether pictures show how a route differs: by path, overlap, points, or network."""
        match = self.comparison.match
        is_of_network = any(one.thing != "route" for one in self.comparison.differences)
        return old is None or new is None or is_of_network or any(
            self.differs(member, match.old["routes"][old], match.new["routes"][new]) for member in DRAWN)

    # -- the sheet

    def sheet(self):
        """Returns both tables as one sheet. A route that differs has a row for each."""
        versions = {self.new.value["version"]}
        if not self.comparison.is_of_network:
            versions.add(self.old.value["version"])
        known = route_members(max(versions))
        return control_table.sheet("", known, self.rows(known))

    def rows(self, known):
        """Returns the rows: the new table's routes in order, then removed ones."""
        match = self.comparison.match
        old_of = {s: r for r, s in match.routes.items()}
        differ = {one.new for one in self.comparison.differences if one.thing == "route"}
        for s, route in enumerate(match.new["routes"]):
            if s not in old_of:
                yield row(self.words[CAME], route, known, known)
            elif s not in differ:
                yield row("", route, known)
            else:
                old = match.given_old["routes"][old_of[s]]
                renamed = match.old["routes"][old_of[s]]
                marked = [member for member in known if self.differs(member, renamed, route)]
                yield row(self.words["old"], old, known, marked, "old")
                yield row(self.words["new"], route, known, marked)
        for r, route in enumerate(match.given_old["routes"]):
            if r not in match.routes:
                yield row(self.words[WENT], route, known, known, "old")

    def differs(self, member, old, new):
        """Returns whether an entry of a route differs."""
        if member == "name":
            return old["name"] != new["name"] and not self.comparison.is_of_network
        return any(line.startswith(control_table.heading(member) + " ")
                   for line in self.comparison.changes(old, new))
