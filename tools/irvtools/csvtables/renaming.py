"""Renames things and drops routes, in all lists of a configuration."""

from __future__ import annotations

from collections import Counter
from typing import Any

from irvtools.csvtables.configurations import read_text
from irvtools.rules.schema_rules import NAME
from irvtools.calls.refusal import Refused, shown

ROUTE, SECTION, BOARD = "route", "section", "board"
BOARDS = ("board_down", "board_up")
# Kind of thing that each member names.
KINDS = {"sections": {"name": SECTION, "down": SECTION, "up": SECTION, "stem": SECTION, "plus": SECTION,
                      "minus": SECTION, "board_down": BOARD, "board_up": BOARD},
         "routes": {"name": ROUTE, "source": BOARD, "destination": BOARD, "path": SECTION,
                    "overlap": SECTION, "points": SECTION, "conflicts": ROUTE,
                    "protecting_points": SECTION, "protecting_boards": BOARD}}


class Changes:
    """The requested changes: new names and dropped routes, each with the location of its request."""

    def __init__(self):
        self.renamed, self.dropped = [], []

    def rename(self, word, where):
        """Takes OLD=NEW."""
        old, equals, new = word.partition("=")
        if not equals or not old or not new:
            raise Refused(f"{where}: there stands {shown(word)}, and OLD=NEW was expected")
        if not NAME.fullmatch(new):
            raise Refused(f"{where}: {shown(new)} is no name; 1 to 32 of the characters A to Z, a to z, "
                          "0 to 9, _ and - were expected")
        self.renamed.append((old, new, where))

    def drop(self, name, where):
        """Takes the name of a route."""
        self.dropped.append((name, where))

    def read_list(self, path):
        """Takes a file with lines `rename OLD=NEW` and `drop NAME`. Empty lines and those that
        begin with # are skipped."""
        faults = []
        for number, line in enumerate(read_text(path, "a list").split("\n"), 1):
            where, words = f"{path}, line {number}", line.split()
            try:
                if not words or words[0].startswith("#"):
                    continue
                if len(words) != 2 or words[0] not in ("rename", "drop"):
                    raise Refused(f"{where}: there stands {shown(line.strip())}, and `rename OLD=NEW` or "
                                  "`drop NAME` was expected")
                (self.rename if words[0] == "rename" else self.drop)(words[1], where)
            except Refused as refused:
                faults += refused.faults
        if faults:
            raise Refused(*faults)

    def applied(self, value):
        """Returns the configuration with these changes. All names are those before any change."""
        names, faults = names_of(value), []
        new = {kind: {} for kind in names}
        for old, name, where in self.renamed:
            try:
                kind, old = found(names, old, where)
                if old in new[kind]:
                    raise Refused(f"{where}: the {kind} {old} has another new name already")
                new[kind][old] = name
            except Refused as refused:
                faults += refused.faults
        dropped = set()
        for name, where in self.dropped:
            try:
                dropped.add(found({ROUTE: names[ROUTE]}, name, where)[1])
                if name in new[ROUTE]:
                    raise Refused(f"{where}: the route {name} has a new name, and can't be dropped besides")
            except Refused as refused:
                faults += refused.faults
        value = without(value, dropped)
        faults = faults or list(taken_twice(value, new))
        if faults:
            raise Refused(*faults)
        return renamed(value, new)


def names_of(value: dict[str, Any]) -> dict[str, Counter[str]]:
    """Returns the count of each name, by kind."""
    return {ROUTE: Counter(route["name"] for route in value["routes"]),
            SECTION: Counter(section["name"] for section in value["sections"]),
            BOARD: Counter(section[side] for section in value["sections"] for side in BOARDS
                           if section.get(side) is not None)}


def found(names, word, where):
    """Returns the kind and the name that `word` refers to. If things of several kinds have the
    name, its kind comes first, as in route:NAME."""
    kind, colon, name = word.partition(":")
    if colon:
        kinds = [kind] if name in names.get(kind, ()) else []
    else:
        name, kinds = word, [kind for kind in names if word in names[kind]]
    if not kinds:
        raise Refused(f"{where}: no {' or '.join([kind] if colon else names)} is called {shown(name)}")
    if len(kinds) > 1:
        raise Refused(f"{where}: {name} is the name of a {' and of a '.join(kinds)}; "
                      f"{' or '.join(f'{one}:{name}' for one in kinds)} was expected")
    if names[kinds[0]][name] > 1:
        raise Refused(f"{where}: more than one {kinds[0]} has the name {name}")
    return kinds[0], name


def taken_twice(value, new):
    """Yields faults of new names: one that another thing has, or that a list uses for a missing
    thing."""
    for kind, names in names_of(value).items():
        after = {}
        for old in [*names, *missing(value, kind, names)]:
            after.setdefault(new[kind].get(old, old), []).append(old)
        for name, olds in after.items():
            if len(olds) > 1 and olds[-1] in names:
                yield f"{name} would be the name of the {kind}s {' and '.join(olds)}"
            elif len(olds) > 1:
                yield (f"{name} would be the name of the {kind} {olds[0]}, and what refers to it now means "
                       f"a {kind} that isn't there")


def missing(value: dict[str, Any], kind: str, names: Counter[str]) -> list[str]:
    """Returns the names of a kind that the configuration refers to and nothing has."""
    seen = []
    renamed(value, {one: Seen(seen if one == kind else []) for one in (ROUTE, SECTION, BOARD)})
    return [name for name in dict.fromkeys(seen) if name not in names]


class Seen(dict):
    """New names equal to the old ones. It records each requested name."""

    def __init__(self, seen):
        super().__init__()
        self.seen = seen

    def get(self, name, _):
        """Returns the name."""
        if name is not None:
            self.seen.append(name)
        return name


def without(value, dropped):
    """Returns a configuration without some routes, in lists of conflicts too."""
    return {**value, "routes": [
        {**route, "conflicts": [name for name in route["conflicts"] if name not in dropped]}
        for route in value["routes"] if route["name"] not in dropped]}


def renamed(value: dict[str, Any], new: dict[str, dict[str, str]]) -> dict[str, Any]:
    """Returns a configuration with new names, given by kind and old name."""
    def of(kind, names):
        if isinstance(names, list):
            return [of(kind, name) for name in names]
        if isinstance(names, dict):
            return {**names, "point": of(kind, names["point"])}
        return new[kind].get(names, names)
    return {**value, **{
        list_: [{member: of(kinds[member], said) if member in kinds else said
                 for member, said in entry.items()} for entry in value[list_]]
        for list_, kinds in KINDS.items()}}


def named(value: dict[str, Any]) -> dict[str, Any]:
    """Returns a configuration with routes named after source and destination, or else their last
    section. Alternative routes also get the first point, or else section, that only one of them
    uses, or else a number."""
    routes, faults = value["routes"], []
    olds = Counter(route["name"] for route in routes)
    faults += [f"{count} routes have the name {name}, so that lists of conflicts don't say which is meant"
               for name, count in olds.items() if count > 1]
    wanted = by_point(value, [f"{route['source']}-{end_of(route, faults)}" for route in routes])
    counts, taken = Counter(wanted), {name for name, count in Counter(wanted).items() if count == 1}
    new, last = {}, Counter()
    for route, name in zip(routes, wanted):
        if counts[name] > 1:
            name = numbered(name, last, taken)
        if not NAME.fullmatch(name):
            faults.append(f"the route {route['name']} would be called {name}, which has {len(name)} "
                          "characters; a name has at most 32")
        new[route["name"]] = name
    new = {ROUTE: new, SECTION: {}, BOARD: {}}
    faults = faults or list(taken_twice(value, new))
    if faults:
        raise Refused(*faults)
    return renamed(value, new)


def by_point(value, names):
    """Returns route names. Shared ones get a point or section that their other routes don't use,
    unless another route has the result."""
    points = {section["name"] for section in value["sections"] if section["kind"] == "point"}
    found = list(names)
    for number, name in enumerate(names):
        others = [value["routes"][k]["path"] for k, one in enumerate(names) if one == name and k != number]
        own = [x for x in value["routes"][number]["path"] if not any(x in path for path in others)]
        over = [x for x in own if x in points] or own
        if others and over and NAME.fullmatch(f"{name}-{over[0]}"):
            found[number] = f"{name}-{over[0]}"
    counts = Counter([*found, *names])
    return [new if counts[new] == 1 else old for new, old in zip(found, names)]


def end_of(route, faults):
    """Returns the name for the end of a route."""
    if route["destination"] is not None:
        return route["destination"]
    if route["path"]:
        return route["path"][-1]
    faults.append(f"the route {route['name']} has neither a destination nor a path")
    return ""


def numbered(name, last, taken):
    """Returns a name with the next number that makes it unique."""
    while True:
        last[name] += 1
        new = f"{name}-{last[name]}"
        if new not in taken:
            taken.add(new)
            return new
