"""A train in a track plan: line from rear to front, arrow and number."""

from __future__ import annotations

from typing import TYPE_CHECKING

from irvtools.model.state import State
from irvtools.trackplan import signs

if TYPE_CHECKING:
    from irvtools.trackplan.drawing import Drawing


def line(points):
    """Returns the path of a line through points."""
    return "M" + "L".join(f"{x:.0f} {y:.0f}" for x, y in points)


def path(points: list[tuple[float, float]], class_: str) -> str:
    """Returns a line through points."""
    return f'<path d="{line(points)}" class="{class_}"/>'


def train(drawing: Drawing, direction: str, body: list[int], state: State, number: int) -> str:
    """Returns a train from rear to front, with its number."""
    points = []
    for place, x in enumerate(body):
        before = body[place - 1] if place else None
        after = body[place + 1] if place + 1 < len(body) else None
        points += way(drawing, x, direction, before, after, state)
    points[0] = toward(points[0], points[1], 0.22)
    tip = toward(points[-1], points[-2], 0.16)
    points[-1] = toward(points[-1], points[-2], 0.3)
    shift = -2 if direction == "up" else 2
    points = [(x, y + shift) for x, y in points]
    label = signs.number(*toward(points[-2], points[-1], 0.6), direction, number)
    return (path(points, f"tr {direction}") + arrow(points[-1], (tip[0], tip[1] + shift), direction)
            + label)


def way(drawing, x, direction, before, after, state):
    """Returns the points of a train's way through a section."""
    section = drawing.plant.sections[x]
    if not section.is_point:
        ends = [drawing.end(x, "down"), drawing.end(x, "up")]
        return ends if direction == "up" else ends[::-1]
    laid = state.at[x] if state.at[x] != "moving" else "plus"
    aside = drawing.plant.leg_to(x, after if section.faces == direction else before) or laid
    ends = [drawing.end(x, "stem"), drawing.frog(x), drawing.end(x, aside)]
    return ends if section.faces == direction else ends[::-1]


def toward(point, other, part):
    """Returns a point part of the way to another."""
    return point[0] + (other[0] - point[0]) * part, point[1] + (other[1] - point[1]) * part


def arrow(base, tip, direction):
    """Returns the front of a train: a triangle in its direction."""
    dx, dy = tip[0] - base[0], tip[1] - base[1]
    length = max((dx * dx + dy * dy) ** 0.5, 0.1)
    ux, uy = dx / length, dy / length
    bx, by = base[0] + ux * 2, base[1] + uy * 2
    corners = [(bx + uy * 7, by - ux * 7), (bx + ux * 14, by + uy * 14), (bx - uy * 7, by + ux * 7)]
    return f'<path d="{line(corners)}z" class="ah {direction}"/>'
