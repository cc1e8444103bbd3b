"""Explains a refusal of `irv` with names and entries, in the HTML report's sentences."""

from __future__ import annotations

import re
from dataclasses import dataclass

from irvtools.model.plant import Plant
from irvtools.rules import broken_rules, schema_rules

REFUSED = re.compile(r"refused ([FNRCG][1-8])((?: (?:document|extra|(?:sections|boards|routes)\[[0-9]+\])){1,2})")
PLACE = re.compile(r"(sections|boards|routes)\[([0-9]+)\]")
# the member of an entry that a rule is about; otherwise the whole entry
MEMBERS = {"N1": "name", "R1": "name", "R2": "source", "R3": "path", "R4": "points", "R5": "destination",
           "R6": "conflicts", "R7": "protecting_points", "R8": "protecting_boards", "C1": "path", "C2": "path",
           "C3": "points", "C4": "overlap", "C5": "conflicts", "C6": "conflicts", "C8": "conflicts"}
# byte limits of the file that a command reads besides the configuration
MOST_BYTES = {"replay": 1048576, "drive": 8192, "audit": 1073741824, "rup": 67108864}
MOST_PATH, MOST_ROUTES = 32, 256
FORM_RULES = ("F1", "F2", "F3", "F4", "F5", "F6")
TABLE_RULES = ("G1", "G2")
RULES = (*FORM_RULES, *broken_rules.EXPLAINED, *TABLE_RULES)


@dataclass(frozen=True)
class Entry:
    """A configuration's section or route, by list and number, or a member of it."""

    list: str
    number: int
    member: str | None = None


@dataclass(frozen=True)
class Explanation:
    """Sentences about a fault, with its rule and entries."""

    rule: str
    sentences: list[str]
    entries: list[Entry]


def plant_of(given: bytes) -> Plant | None:
    """Returns a configuration's plant, or `None` if the schema does not fit."""
    value, unread = schema_rules.read(given)
    if unread is not None:
        return None
    try:
        return Plant(value)
    except (TypeError, KeyError, AttributeError):
        return None


def explained(line: str, given: bytes, plant: Plant | None, command: str = "check",
              length: int | None = None) -> Explanation | None:
    """Returns sentences for a line `refused ..` of `command`, or `None` for another line. `length`
    is that of the file read besides the configuration, if known."""
    found = REFUSED.fullmatch(line)
    if not found:
        return None
    rule, places = found[1], found[2].split()
    if places == ["extra"]:
        return Explanation(rule, [too_long(command, length)], [])
    if rule in FORM_RULES:
        entries = [Entry(one[1], int(one[2])) for one in map(PLACE.fullmatch, places) if one]
        return Explanation(rule, form_sentences(rule, places[0], given), entries)
    if plant is None:
        return Explanation(rule, [], [])
    if rule in TABLE_RULES:
        return Explanation(rule, [no_table(rule, places[0], plant)], entries_of(rule, places, plant))
    return Explanation(rule, broken_rules.sentences(plant, *broken_rules.read_line(line)),
                       entries_of(rule, places, plant))


def form_sentences(rule: str, place: str, given: bytes) -> list[str]:
    """Returns a configuration's schema faults."""
    return schema_rules.faults(rule, place, given) or [
        f"The form is wrong at {place}; docs/reference/formats.md says what rule {rule} asks for."]


def too_long(command: str, length: int | None) -> str:
    """Returns that the file of `--run` or `--cert` is too long."""
    has = "is longer" if length is None else f"has {length} bytes, which is more"
    return f"The file that {command} reads {has} than the {MOST_BYTES[command]} bytes that it may have."


def no_table(rule: str, place: str, plant: Plant) -> str:
    """Returns why `table` gives no table of a network."""
    if rule == "G2":
        return (f"The network has more than {MOST_ROUTES} routes, which a table may have. Add boards that "
                "divide it, or split the network.")
    board = plant.boards[int(PLACE.fullmatch(place)[2])]
    return (f"From board {board.name} on section {plant.name(board.section)}, a path in direction "
            f"{board.direction} passes {MOST_PATH} sections without a board for that direction and without "
            "an end of the network. Put a board on one of them.")


def entries_of(rule: str, places: list[str], plant: Plant) -> list[Entry]:
    """Returns the entries at a broken rule's places."""
    found = []
    for list_, number in (PLACE.fullmatch(place).groups() for place in places if place != "document"):
        if list_ == "boards":
            board = plant.boards[int(number)]
            found.append(Entry("sections", board.section, f"board_{board.direction}"))
        else:
            found.append(Entry(list_, int(number), MEMBERS.get(rule)))
    return found
