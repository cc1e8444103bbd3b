"""The plan of `trackplan` for the page's script: places of lines, signs, letters and trains, and
sign shapes."""

from __future__ import annotations

import re
from typing import Any

from irvtools.trackplan import signs
from irvtools.trackplan.drawing import Drawing

EDGE_OF_ENTRY = 15      # from the end of a border to the entry sign
JOINT = re.compile(r'<path d="M([-0-9 L]+)" class="(j|torn)"/>')


def points(line):
    """Returns a line in whole numbers."""
    return [[round(x), round(y)] for x, y in line]


def entry_place(drawing, x):
    """Returns the place of a border's sign."""
    if drawing.plant.inward[x] == "up":
        at, y = drawing.end(x, "down")
        return [round(at - EDGE_OF_ENTRY), round(y)]
    at, y = drawing.end(x, "up")
    return [round(at + EDGE_OF_ENTRY), round(y)]


def joints(drawing):
    """Yields the marks of the joints, each with its class."""
    for match in filter(None, map(JOINT.fullmatch, drawing.tracks())):
        yield match[2], [[int(place) for place in point.split(" ")] for point in match[1].split("L")]


def geometry(drawing: Drawing) -> dict[str, Any]:
    """Returns the plan's strips, joints, section lines, the places of letters, boards and entries,
    and the report's sign shapes."""
    sections = range(len(drawing.plant.sections))
    return {"strips": [[round(value) for value in strip] for strip in drawing.strips],
            "joints": list(joints(drawing)),
            "legs": [{leg: points(line) for leg, line in drawing.legs(x).items()} for x in sections],
            "letters": points(drawing.letter_place(x) for x in sections),
            "shapes": {way: signs.shapes(way) for way in ("up", "down")}, "marks": signs.LETTERS,
            "signs": points(drawing.signs[b] for b in range(len(drawing.plant.boards))),
            "middles": points((drawing.middle(x), drawing.y(x)) for x in sections),
            "entries": {x: entry_place(drawing, x) for x in drawing.plant.inward}}
