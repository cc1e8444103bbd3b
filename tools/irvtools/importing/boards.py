"""Boards from the data, and boards that a rule places."""

from typing import List

from irvtools.importing.notes import Notes
from irvtools.importing.sections import Key, Linear, Point, Sections
from irvtools.importing.tracks import Board

OTHER = {"up": "down", "down": "up"}


class Placed:
    """A board on a section for one direction, with its rule if the data has none."""

    def __init__(self, key: Key, direction: str, board: Board, rule: str = ""):
        self.key, self.direction, self.board, self.rule = key, direction, board, rule


def of_data(one: Linear, direction: str, notes: Notes) -> List[Placed]:
    """Returns the data's board of a section and direction. A board at the end of the track is left
    out and noted: no train can pass it."""
    board = one.boards[direction]
    if board is None:
        return []
    if getattr(one, direction) is None:
        notes.add("left out", board.thing, "a board at the end of the track: no train passes it")
        return []
    return [Placed(one.key, direction, board)]


def rule_for(sections: Sections, one: Linear, direction: str, signals: str,
             metres: float) -> str:
    """Returns the rule that places a board here, or nothing."""
    beyond = getattr(one, direction)
    if beyond is None:
        return ""
    if getattr(one, OTHER[direction]) is None:
        return "border: every border needs a board inward (rule C7)"
    if signals != "map" and one.metres >= metres and isinstance(sections.all[beyond], Point):
        return f"before a point, on a section of at least {metres:g} m"
    return ""


def placed(sections: Sections, signals: str, metres: float, notes: Notes) -> List[Placed]:
    """Returns all boards in section order, direction down first."""
    found: List[Placed] = []
    for one in sections.linear():
        for direction in ("down", "up"):
            here = of_data(one, direction, notes)
            if not here:
                rule = rule_for(sections, one, direction, signals, metres)
                here = [Placed(one.key, direction, Board("", None), rule)] if rule else []
            found += here
    return found
