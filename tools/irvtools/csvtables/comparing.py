"""The entries in which two configurations differ, in order."""

from collections import Counter

from irvtools.csvtables import cells
from irvtools.csvtables import columns
from irvtools.csvtables.matching import Match, first_numbers
from irvtools.csvtables.renaming import BOARD, SECTION
from irvtools.model.phrases import list_words

IN_ORDER = ("path", "overlap")      # lists whose order matters
CAME, WENT, RENAMED, CHANGED = "came", "went", "renamed", "changed"


class Difference:
    """A difference: thing, change, the numbers of its entry in both configurations (`None` if
    missing), and sentence."""

    def __init__(self, thing, what, old, new, line):
        self.thing, self.what, self.old, self.new, self.line = thing, what, old, new, line


class Comparison:
    """Two compared configurations. If the old one is the table that `irv table` makes of the new
    one's network, its route names mean nothing. A route in that table only is a way without a
    route."""

    def __init__(self, old, new, is_of_network=False):
        self.match = Match(old, new, not is_of_network)
        self.old, self.new = self.match.old, self.match.new
        self.is_of_network = is_of_network
        self.old_numbers, self.new_numbers = (first_numbers(value["routes"])
                                              for value in (self.old, self.new))
        self.differences = [*self.sections(), *self.boards(), *self.routes()]

    def lines(self):
        """Returns the report's lines."""
        lines = [difference.line for difference in self.differences]
        if not lines:
            lines = [self.same()]
        versions = self.match.given_old["version"], self.new["version"]
        if versions[0] != versions[1] and not self.is_of_network:
            lines.append("the version was {} and is {}; what version 1 doesn't have is an empty list"
                         .format(*versions))
        return lines

    def same(self):
        """Returns that nothing differs, and whether the order does."""
        if self.is_of_network:
            return "the same: each way has its route"
        return "the same, in another order" if self.has_another_order() else "the same"

    def has_another_order(self):
        """Returns whether entries, or names in a list, are in another order."""
        pairs = [*self.match.sections.items(), *self.match.routes.items()]
        return any(x != y for x, y in pairs) or any(
            (self.old["routes"][r].get(one.member) or []) != (self.new["routes"][s].get(one.member) or [])
            for r, s in self.match.routes.items() for one in columns.of_routes(2))

    # -- sections, boards

    def sections(self):
        """Yields the section differences: old ones in their order, then added ones."""
        names = {new: old for old, new in self.match.new_names[SECTION].items()}
        for x, section in enumerate(self.old["sections"]):
            y = self.match.sections.get(x)
            name = section["name"]
            if y is None:
                yield Difference(SECTION, WENT, x, None, f"section {name} went: {of_section(section)}")
                continue
            if name in names:
                yield Difference(SECTION, RENAMED, x, y, f"section {names[name]} is now called {name}")
            other = self.new["sections"][y]
            for column in columns.OF_SECTIONS:
                said = [one.get(column.member) for one in (section, other)]
                if said[0] != said[1]:
                    yield Difference(SECTION, CHANGED, x, y, f"section {name}: {changed(column, *said)}")
            for line in self.extra("sections", section, other):
                yield Difference(SECTION, CHANGED, x, y, f"section {name}: {line}")
        for y, section in enumerate(self.new["sections"]):
            if y not in self.match.sections.values():
                yield Difference(SECTION, CAME, None, y,
                                 f"section {section['name']} came: {of_section(section)}")

    def boards(self):
        """Yields the renamed boards."""
        for old, new in self.match.new_names[BOARD].items():
            yield Difference(BOARD, RENAMED, None, None, f"board {old} is now called {new}")

    # -- routes

    def routes(self):
        """Yields the route differences: old ones in their order, then added ones."""
        for r, route in enumerate(self.old["routes"]):
            s = self.match.routes.get(r)
            if s is None:
                yield Difference("route", WENT, r, None, self.went(route))
                continue
            other = self.new["routes"][s]
            if route["name"] != other["name"] and not self.is_of_network:
                yield Difference("route", RENAMED, r, s,
                                 f"route {route['name']} is now called {other['name']}")
            for line in self.changes(route, other):
                yield Difference("route", CHANGED, r, s, f"route {other['name']}: {line}")
            for line in self.extra("routes", route, other):
                yield Difference("route", CHANGED, r, s, f"route {other['name']}: {line}")
        for s, route in enumerate(self.new["routes"]):
            if s not in self.match.routes.values():
                yield Difference("route", CAME, None, s, self.came(route))

    def went(self, route):
        """Returns that a route was removed, or that a way of the network has none."""
        if self.is_of_network:
            return f"no route: {of_route(route)}"
        lists = in_conflicts(route["name"], self.old, self.new, self.match.routes)
        return (f"route {route['name']} went: {of_route(route)}"
                + (f"; it was in the conflicts of {' '.join(lists)}" if lists else ""))

    def came(self, route):
        """Returns that a route was added, or that it is not a way of the network."""
        if self.is_of_network:
            return f"route {route['name']} is no way of the network: {of_route(route)}"
        pairs = {s: r for r, s in self.match.routes.items()}
        lists = in_conflicts(route["name"], self.new, self.old, pairs)
        return (f"route {route['name']} came: {of_route(route)}"
                + (f"; it is in the conflicts of {' '.join(lists)}" if lists else ""))

    def changes(self, route, other):
        """Yields the entries in which a route differs."""
        for column in columns.of_routes(2):
            if column.member in ("name", "conflicts"):
                if column.member == "conflicts":
                    yield from self.conflicts(route, other)
                continue
            said = [one.get(column.member) or None for one in (route, other)]
            if column.member in IN_ORDER or not isinstance(said[0] or said[1], list):
                if said[0] != said[1]:
                    yield changed(column, *said)
            else:
                yield from listed(column.heading, *(list_words(one or []) for one in said))

    def extra(self, list_, entry, other):
        """Yields differences of an entry's comments and labels, in columns that both files have."""
        headings = [value.get(columns.EXTRA, {}).get(list_, []) for value in (self.old, self.new)]
        for heading in headings[0]:
            if heading in headings[1]:
                old, new = (one[columns.EXTRA].get(heading, "").strip() for one in (entry, other))
                if old != new:
                    yield f"{heading} {old or 'none'}, now {new or 'none'}"

    def conflicts(self, route, other):
        """Yields the added and removed conflicts of a route, without added and removed routes:
        those are reported by themselves."""
        olds = [self.now_called(name) for name in route["conflicts"]]
        came = [name for name in other["conflicts"] if self.is_new(name) and name not in olds]
        went = [name for name in route["conflicts"] if self.is_gone(name)
                and name not in other["conflicts"]]
        yield from listed("conflicts", [name for name in olds if name not in went],
                          [name for name in other["conflicts"] if name not in came])

    def now_called(self, name):
        """Returns the new name of an old route, or its old name if it was removed."""
        number = self.match.routes.get(self.old_numbers.get(name))
        return name if number is None else self.new["routes"][number]["name"]

    def is_gone(self, name):
        """Returns whether a route of the old table was removed."""
        return name in self.old_numbers and self.old_numbers[name] not in self.match.routes

    def is_new(self, name):
        """Returns whether a route of the new table was added."""
        return name in self.new_numbers and self.new_numbers[name] not in self.match.routes.values()


def shown(column, said):
    """Returns an entry as a text."""
    return cells.bare(column.write(said)) if said else "none"


def changed(column, old, new):
    """Returns that an entry has changed."""
    return f"{column.heading} {shown(column, old)}, now {shown(column, new)}"


def listed(heading, olds, news):
    """Yields a list's removed and added names, in any order."""
    less, more = Counter(olds) - Counter(news), Counter(news) - Counter(olds)
    parts = [f"{word} {' '.join(names.elements())}" for word, names in (("without", less), ("with", more))
             if names]
    if parts:
        yield f"{heading} {', '.join(parts)}"


def of_section(section):
    """Returns a section's non-empty entries in words."""
    return ", ".join([section["kind"]] + [
        f"{one.heading} {section[one.member]}" for one in columns.of_section(section["kind"])
        if one.member not in ("name", "kind") and section[one.member] is not None])


def of_route(route):
    """Returns the way of a route in words."""
    end = f"to {route['destination']}" if route["destination"] else "out"
    return f"from {route['source']} {end} over {' '.join(route['path']) or 'nothing'}"


def in_conflicts(name, value, other, pairs):
    """Returns the routes of a configuration that list a route as a conflict, but don't in the other
    configuration. `pairs` matches their routes."""
    return [route["name"] for number, route in enumerate(value["routes"]) if name in route["conflicts"]
            and not (number in pairs and name in other["routes"][pairs[number]]["conflicts"])]
