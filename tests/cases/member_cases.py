"""The cases of a configuration's members: missing, unknown, and of every wrong kind."""

import copy
import json

from tests.support.case_files import CASES, Case, CaseError

SAMPLES = {"null": None, "text": "a", "number": 1, "truth": True, "array": [], "object": {}}

BASE = {
    "version": 1,
    "sections": [
        {"name": "a", "kind": "linear", "down": None, "up": "p", "board_down": None,
         "board_up": "m1"},
        {"name": "p", "kind": "point", "faces": "up", "stem": "a", "plus": "t", "minus": "u"},
        {"name": "t", "kind": "linear", "down": "p", "up": None, "board_down": "m2",
         "board_up": None},
        {"name": "u", "kind": "linear", "down": "p", "up": None, "board_down": "m3",
         "board_up": None}],
    "routes": [
        {"name": "r1", "source": "m1", "destination": None, "path": ["p", "t"], "overlap": [],
         "points": [{"point": "p", "position": "plus"}], "conflicts": ["r2"]},
        {"name": "r2", "source": "m2", "destination": None, "path": ["p", "a"], "overlap": [],
         "points": [{"point": "p", "position": "plus"}], "conflicts": ["r1"]}]}

# The same in version 2, with one more point and two more borders for protection.
BASE_OF_SECOND = {
    "version": 2,
    "sections": [
        *BASE["sections"][:3],
        {"name": "u", "kind": "linear", "down": "p", "up": "q", "board_down": None,
         "board_up": None},
        {"name": "q", "kind": "point", "faces": "up", "stem": "u", "plus": "v", "minus": "w"},
        {"name": "v", "kind": "linear", "down": "q", "up": None, "board_down": "m3",
         "board_up": None},
        {"name": "w", "kind": "linear", "down": "q", "up": None, "board_down": "m4",
         "board_up": None}],
    "routes": [
        {**BASE["routes"][0], "protecting_points": [{"point": "q", "position": "plus"}],
         "protecting_boards": ["m3"]},
        {**BASE["routes"][1], "protecting_points": [{"point": "q", "position": "minus"}],
         "protecting_boards": ["m1"]}]}

# for each kind of object: its base, its path there, and the place of its faults
OBJECTS = {
    "document": (BASE, [], "document"),
    "linear": (BASE, ["sections", 2], "sections[2]"),
    "point": (BASE, ["sections", 1], "sections[1]"),
    "route": (BASE, ["routes", 1], "routes[1]"),
    "listed": (BASE, ["routes", 1, "points", 0], "routes[1]"),
    "route_of_second": (BASE_OF_SECOND, ["routes", 1], "routes[1]"),
    "protecting": (BASE_OF_SECOND, ["routes", 1, "protecting_points", 0], "routes[1]"),
}


def at(value, path):
    """Returns the part of a value at a path."""
    for step in path:
        value = value[step]
    return value


def put(value, path, part):
    """Returns a copy of a value with another part at a path."""
    value = copy.deepcopy(value)
    at(value, path[:-1])[path[-1]] = part
    return value


def without(value, path):
    """Returns a copy of a value without the member at a path."""
    value = copy.deepcopy(value)
    del at(value, path[:-1])[path[-1]]
    return value


def member_case(name, value, line, status, why):
    """Returns a case of `check` over a value."""
    case = Case(name, "members.table")
    case.why = why
    case.words = ["check"]
    case.conf = json.dumps(value).encode()
    case.stdout = line.encode() + b"\n"
    case.status = status
    return case


def refused(name, value, place, why):
    """Returns a case that refuses a member's form."""
    return member_case(name, value, f"refused F3 {place}", 5, why)


def wrong_values(allowed, texts):
    """Yields wrong values of a member, each with a word for it."""
    for kind, sample in SAMPLES.items():
        if kind not in allowed:
            yield kind, sample
    if texts:
        for text in ("", texts[0].upper(), "other"):
            yield f"the text {json.dumps(text)}", text


def wrong_entries(base, path, entry_kind, place):
    """Yields arrays with an entry of a wrong kind, and the place of the entry's object."""
    right = at(base, path)
    for kind, sample in SAMPLES.items():
        if kind == entry_kind:
            continue
        of_document = len(path) == 1
        yield (f"an array with {kind}", [sample],
               f"{path[0]}[0]" if of_document else place)
        yield (f"an array whose last entry is {kind}", [*right, sample],
               f"{path[0]}[{len(right)}]" if of_document else place)


def object_cases(kind, rows):
    """Yields the cases of one kind of object."""
    base, where, place = OBJECTS[kind]
    for label, sample in SAMPLES.items():
        yield refused(f"{kind}: unknown member with {label}",
                      put(base, [*where, "other"], sample), place,
                      "no member but the listed ones is allowed")
    for member, words in rows:
        path = [*where, member]
        allowed = [word for word in words if word in SAMPLES]
        texts = [word[1:] for word in words if word.startswith("=")]
        entries = next((word[1:] for word in words if word.startswith("*")), None)
        yield refused(f"{kind}: {member} missing", without(base, path), place,
                      "every listed member is needed")
        for label, sample in wrong_values(allowed, texts):
            yield refused(f"{kind}: {member} is {label}", put(base, path, sample), place,
                          f"{member} is {' or '.join(words)}")
        if entries:
            for label, sample, at_place in wrong_entries(base, path, entries, place):
                yield refused(f"{kind}: {member} is {label}", put(base, path, sample), at_place,
                              f"the entries of {member} are of the kind {entries}")


def read_rows(text):
    """Returns the table's rows, by kind of object."""
    rows = {}
    for line in text.splitlines():
        if line.strip() and not line.startswith("#"):
            kind, member, *words = line.split()
            if kind not in OBJECTS or not words:
                raise CaseError(f"members.table: {line}")
            rows.setdefault(kind, []).append((member, words))
    return rows


def member_cases():
    """Returns all cases of the table, and the correct base."""
    rows = read_rows((CASES / "members.table").read_text(encoding="utf-8"))
    cases = [member_case("the base is right", BASE, "clean", 0,
                         "two routes over a point, with a board at each border"),
             member_case("the base of version 2 is right", BASE_OF_SECOND, "clean", 0,
                         "the same, with a point and a board that protect each route")]
    for kind, members in rows.items():
        base, where, _ = OBJECTS[kind]
        known = set(at(base, where))
        if known != {member for member, _ in members}:
            raise CaseError(f"members.table: {kind} hasn't the members of its object")
        cases.extend(object_cases(kind, members))
    return cases
