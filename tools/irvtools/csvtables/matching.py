"""Matches sections, boards and routes of two configurations.

Equal names match. For a route this holds only if no other has the same source and path. A renamed
section has the neighbours and boards of the one that is gone. A renamed board is on the same
section in the same direction.
"""

from __future__ import annotations

from collections import Counter, defaultdict
from typing import Any

from irvtools.csvtables.renaming import BOARD, BOARDS, ROUTE, SECTION, missing, names_of, renamed

ENDS = {"linear": ("down", "up"), "point": ("stem", "plus", "minus")}


def by_name(entries, others):
    """Returns matching entries by number. Equal names match in order."""
    left = defaultdict(list)
    for number, entry in enumerate(others):
        left[entry["name"]].append(number)
    return {number: left[entry["name"]].pop(0) for number, entry in enumerate(entries)
            if left[entry["name"]]}


def first_numbers(entries: list[dict[str, Any]]) -> dict[str, int]:
    """Returns the number of the first entry of each name."""
    numbers = {}
    for number, entry in enumerate(entries):
        numbers.setdefault(entry["name"], number)
    return numbers


class Sections:
    """Matched sections. `pairs` gives the new number for an old one. `missing` has, by kind, names
    that the new configuration refers to but nothing has. Their former owners aren't considered
    renamed."""

    def __init__(self, old, new, missing):
        self.old, self.new, self.missing = old, new, missing
        self.numbers = first_numbers(old), first_numbers(new)
        self.board_on = {section[side]: y for y, section in enumerate(new) for side in BOARDS
                         if section.get(side) is not None}
        self.pairs = by_name(old, new)
        self.kept = set(self.pairs)     # under the same name
        self.taken = set(self.pairs.values())
        while self.more():
            pass
        while self.fewer():
            pass

    def more(self):
        """Pairs more renamed sections: those with a single candidate."""
        wanted = {x: {y for y in self.candidates(x) if y not in self.taken and self.fits(x, y)}
                  for x, section in enumerate(self.old)
                  if x not in self.pairs and section["name"] not in self.missing[SECTION]}
        times = Counter(y for ys in wanted.values() for y in ys)
        found = {x: y for x, ys in wanted.items() for y in ys if len(ys) == times[y] == 1}
        self.pairs.update(found)
        self.taken.update(found.values())
        return found

    def fewer(self):
        """Removes pairs that don't fit later ones."""
        wrong = [x for x, y in self.pairs.items() if x not in self.kept and not self.fits(x, y)]
        for x in wrong:
            self.taken.remove(self.pairs.pop(x))
        return wrong

    def candidates(self, x):
        """Yields the candidates for a section: those at the same end of the same section, or with
        one of its boards."""
        section = self.old[x]
        for end in ENDS[section["kind"]]:
            beside = self.numbers[0].get(section[end])
            if beside in self.pairs:
                near, far = self.old[beside], self.new[self.pairs[beside]]
                yield from (self.numbers[1][far[leg]] for leg in ENDS[near["kind"]]
                            if near[leg] == section["name"] and far.get(leg) in self.numbers[1])
        yield from (self.board_on[section[side]] for side in BOARDS
                    if section.get(side) in self.board_on)

    def fits(self, x, y):
        """Returns whether one section can be another: it has the same kind, and nothing known at
        its ends differs."""
        section, other = self.old[x], self.new[y]
        if (section["kind"], section.get("faces")) != (other["kind"], other.get("faces")):
            return False
        for end in ENDS[section["kind"]]:
            if (section[end] is None) != (other[end] is None):
                return False
            beside, wanted = (numbers.get(one[end]) for numbers, one
                              in zip(self.numbers, (section, other)))
            if beside in self.pairs and self.pairs[beside] != wanted:
                return False
            if beside not in self.pairs and wanted in self.taken:
                return False
        return True

    def names(self):
        """Returns the new name of each renamed section."""
        return {self.old[x]["name"]: self.new[y]["name"] for x, y in sorted(self.pairs.items())
                if x not in self.kept}

    def boards(self):
        """Returns the new name of each renamed board."""
        olds, news = ({section.get(side) for section in sections for side in BOARDS}
                      for sections in (self.old, self.new))
        news |= self.missing[BOARD]
        names = {}
        for x, y in sorted(self.pairs.items()):
            for side in BOARDS:
                board, other = self.old[x].get(side), self.new[y].get(side)
                if None not in (board, other) and board not in news and other not in olds:
                    names[board] = other
        return names


def way(route):
    """Returns the way of a route."""
    return route["source"], tuple(route["path"])


def route_pairs(old, new, are_named):
    """Returns matching routes by number: first those with the same way, preferring equal names,
    then those with the same name if names count."""
    pairs = {}

    def pair(key):
        left = defaultdict(list)
        taken = set(pairs.values())
        for number, route in enumerate(new):
            if number not in taken:
                left[key(route)].append(number)
        for number, route in enumerate(old):
            if number not in pairs and left[key(route)]:
                pairs[number] = left[key(route)].pop(0)
    pair(lambda route: (route["name"], way(route)))
    pair(way)
    if are_named:
        pair(lambda route: route["name"])
    return pairs


class Match:
    """Two configurations and their matching parts. The first gets the second's section and board
    names. `are_named` is whether route names identify routes."""

    def __init__(self, old, new, are_named):
        names = names_of(new)
        sections = Sections(old["sections"], new["sections"],
                            {kind: set(missing(new, kind, names[kind])) for kind in names})
        self.new_names = {SECTION: sections.names(), BOARD: sections.boards(), ROUTE: {}}
        self.given_old, self.new = old, new
        self.old = renamed(old, self.new_names)
        self.sections = sections.pairs
        self.routes = route_pairs(self.old["routes"], new["routes"], are_named)
