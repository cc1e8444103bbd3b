"""Schema faults of a configuration that `irv` refused, in words: the rules F1 to F6.

It looks at the place that `irv` named, by docs/reference/formats.md. If it finds no fault, only the
line of `irv` is shown."""

from __future__ import annotations

import json
import re
from typing import Any, Iterator

from irvtools.rules import json_limits

MOST_BYTES = 4194304
MOST_VERSION = 2 ** 64 - 1
NAME = re.compile(r"[A-Za-z0-9_-]{1,32}")
SHOWN = 90              # shown characters of an unreadable line

TEXT, MAYBE, NAMES, LISTED = "a text", "a text or null", "an array of texts", "an array of points"
LINEAR = {"name": TEXT, "kind": TEXT, "down": MAYBE, "up": MAYBE, "board_down": MAYBE,
          "board_up": MAYBE}
POINT = {"name": TEXT, "kind": TEXT, "faces": TEXT, "stem": TEXT, "plus": TEXT, "minus": TEXT}
ROUTE = {"name": TEXT, "source": TEXT, "destination": MAYBE, "path": NAMES, "overlap": NAMES,
         "points": LISTED, "conflicts": NAMES}
SECOND = {"protecting_points": LISTED, "protecting_boards": NAMES}
LIMITS = {"path": (1, 32), "overlap": (0, 8), "points": (0, 40), "conflicts": (0, 256),
          "protecting_points": (0, 8), "protecting_boards": (0, 8)}
CHOICES = {"kind": ("linear", "point"), "faces": ("up", "down"), "position": ("plus", "minus")}


def route_members(version: int) -> dict[str, str]:
    """Returns a route's members in a version, in CSV column order."""
    return ROUTE if version == 1 else {**ROUTE, **SECOND}


def no_constant(word):
    """Refuses a number that Python reads and JSON does not have."""
    raise ValueError(f"{word} is not JSON")


def read(given: bytes) -> tuple[Any, str | None]:
    """Returns the value of a configuration's bytes, and `None`; or `None` and the fault, in words."""
    try:
        text = given.decode()
    except UnicodeDecodeError as fault:
        line = given.count(b"\n", 0, fault.start) + 1
        column = fault.start - (given.rfind(b"\n", 0, fault.start) + 1) + 1
        return None, f"Line {line}, byte {column}: the text is not UTF-8."
    if not text.strip(" \t\r\n"):
        return None, "The configuration is empty."
    try:
        return json.loads(text, parse_constant=no_constant), None
    except json.JSONDecodeError as fault:
        return None, (f"Line {fault.lineno}, column {fault.colno}: {fault.msg}. The line is: "
                      f"{shown_line(text, fault)}")
    except (ValueError, RecursionError) as fault:
        return None, f"This is not JSON: {fault}."


def shown_line(text, fault):
    """Returns the line of a fault, up to the fault."""
    line = text.split("\n")[fault.lineno - 1]
    begin = max(0, fault.colno - 1 - SHOWN // 2)
    before, after = line[begin:fault.colno - 1], line[fault.colno - 1:fault.colno - 1 + SHOWN // 2]
    return f"{'… ' if begin else ''}{before} ⟵ here: {after or 'the end of the line'}"


def short(name):
    """Returns a text, shortened if it is long."""
    return name if len(name) <= SHOWN else f"{name[:SHOWN // 2]}…"


def kind_of(value):
    """Returns JSON's word for a value."""
    if value is None:
        return "null"
    for type_, word in ((bool, "a boolean"), (str, "a text"), (int, "a number"),
                        (float, "a number"), (list, "an array"), (dict, "an object")):
        if isinstance(value, type_):
            return word
    return "something else"


def is_kind(value, kind):
    """Returns whether a member's value has the required kind."""
    if kind == TEXT:
        return isinstance(value, str)
    if kind == MAYBE:
        return value is None or isinstance(value, str)
    if kind == NAMES:
        return isinstance(value, list) and all(isinstance(one, str) for one in value)
    return isinstance(value, list) and all(isinstance(one, dict) for one in value)


def member_faults(value, members, what):
    """Returns faults of an object's members."""
    if not isinstance(value, dict):
        yield f"{what} is {kind_of(value)}, but must be an object."
        return
    for member in members:
        if member not in value:
            yield f"{what} lacks the member {member}."
    for member in value:
        if member not in members:
            yield f"{what} has the unknown member {short(member)}; its members are {', '.join(members)}."
    for member, kind in members.items():
        if member in value:
            yield from value_faults(value[member], member, kind, what)


def value_faults(value, member, kind, what):
    """Returns faults of a member's value."""
    if not is_kind(value, kind):
        wrong = kind_of(value)
        if isinstance(value, list) and kind in (NAMES, LISTED):
            one = "a text" if kind == NAMES else "an object"
            entries = [kind_of(entry) for entry in value if kind_of(entry) != one]
            wrong = f"an array with {entries[0]}"
        yield f"The member {member} of {what} is {wrong}, but must be {kind}."
    elif kind == LISTED:
        for entry in value:
            yield from member_faults(entry, {"point": TEXT, "position": TEXT},
                                     f"an entry of {member} of {what}")
    elif member in CHOICES and value not in CHOICES[member]:
        yield f"The member {member} of {what} is “{short(value)}”, but must be " \
              f"{' or '.join(CHOICES[member])}."


def names_of(value):
    """Returns the texts of an object that are names."""
    for member, one in value.items():
        if member in CHOICES:
            continue
        if isinstance(one, str):
            yield member, one
        elif isinstance(one, list):
            for entry in one:
                if isinstance(entry, str):
                    yield member, entry
                elif isinstance(entry, dict):
                    yield from names_of(entry)


def name_faults(value, what):
    """Yields the names with forbidden characters."""
    for member, name in names_of(value):
        if not NAME.fullmatch(name):
            wrong = next((one for one in name if not NAME.fullmatch(one)), None)
            why = f"has the character “{wrong}”" if wrong and len(name) <= 32 \
                else f"has {len(name)} characters"
            yield (f"The name “{short(name)}” in {member} of {what} {why}. A name has 1 to 32 of "
                   f"the "
                   "characters A to Z, a to z, 0 to 9, _ and -.")


def limit_faults(value, what):
    """Yields lists that are too long or too short."""
    for member, (least, most) in LIMITS.items():
        if member in value and not least <= len(value[member]) <= most:
            yield f"{member} of {what} has {len(value[member])} entries, but must have {least} to {most}."


def document_faults(rule: str, given: bytes | None, value: Any) -> Iterator[str]:
    """Yields faults of the document."""
    if rule == "F1":
        yield f"The configuration has {len(given)} bytes, but at most {MOST_BYTES} are read."
    elif rule == "F3":
        members = {"version": "a whole number", "sections": "an array", "routes": "an array"}
        if not isinstance(value, dict):
            yield f"The document is {kind_of(value)}, but must be an object."
            return
        yield from (f"The document lacks the member {m}." for m in members if m not in value)
        yield from (f"The document has the unknown member {m}; its members are "
                    f"{', '.join(members)}."
                    for m in value if m not in members)
        for member, kind in members.items():
            right = int if member == "version" else list
            if member in value and (not isinstance(value[member], right)
                                    or isinstance(value[member], bool)
                                    or (right is int and value[member] < 0)):
                yield f"The member {member} is {kind_of(value[member])}, but must be {kind}."
            elif member == "version" and member in value and value[member] > MOST_VERSION:
                yield "The member version is too large."
    elif rule == "F4":
        yield f"The version is {value['version']}, but must be 1 or 2."
    elif rule == "F6":
        if not 1 <= len(value["sections"]) <= 256:
            yield f"The configuration has {len(value['sections'])} sections, but must have 1 to 256."
        if len(value["routes"]) > 256:
            yield f"The configuration has {len(value['routes'])} routes, but must have at most 256."


def entry_faults(rule: str, value: Any, place: str) -> Iterator[str]:
    """Yields faults of a section or a route."""
    list_, number = place.rstrip("]").split("[")
    entry = value[list_][int(number)]
    what = "the section" if list_ == "sections" else "the route"
    if isinstance(entry, dict) and isinstance(entry.get("name"), str):
        what += f" {short(entry['name'])}"
    what += f" (number {number})"
    if list_ == "sections":
        members = POINT if isinstance(entry, dict) and entry.get("kind") == "point" else LINEAR
    else:
        members = route_members(value["version"])
    if rule == "F3":
        yield from member_faults(entry, members, what)
    elif rule == "F5":
        yield from name_faults(entry, what)
    elif rule == "F6":
        yield from limit_faults(entry, what)


def faults(rule: str, place: str, given: bytes) -> list[str]:
    """Returns sentences about a schema that `irv` refused by a rule at a place."""
    value, unread = read(given) if rule != "F1" else (None, None)
    if rule == "F2" or unread:
        return [unread] if unread else json_limits.faults(given)
    try:
        if place == "document":
            found = [sentence[0].upper() + sentence[1:]
                     for sentence in document_faults(rule, given, value)]
            return found or json_limits.version_faults(given)
        return [sentence[0].upper() + sentence[1:] for sentence in entry_faults(rule, value, place)]
    except (TypeError, KeyError, IndexError, ValueError):
        return []       # `irv` read another value; only its line is shown
