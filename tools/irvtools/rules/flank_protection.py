"""Finds the ways on which a vehicle could run into a route's path over points, from their unused
leg, and what keeps it out. No rule of `irv` checks this; engineers look for it.

A vehicle is followed back from the path, against its direction, to the first thing that keeps it
out, or to a border.
"""

from __future__ import annotations

from collections import namedtuple
from typing import Iterator

from irvtools.model.plant import OPPOSITE, OTHER_LEG, Plant, Route
from irvtools.rules.way_points import way_of

# a way: points of the path, their leg, the section at that leg, and the guard. From beyond the end
# of the path: its last section, None, and the section after it.
Flank = namedtuple("Flank", "point leg begin guard")
# a guard: one of KINDS, and the points or the board, or for nothing the border
Guard = namedtuple("Guard", "kind number")
KINDS = ("a protecting point", "a protecting board", "a board that it would pass closed", "nothing")
POINT, BOARD, CLOSED, NOTHING = KINDS


def flanks(plant: Plant, route: Route) -> Iterator[Flank]:
    """Yields the ways into a route's path over unused legs of points, and from beyond its end if a
    protecting point or board is there."""
    way = [plant.boards[route.source].section, *route.path]
    for place in range(1, len(way)):
        x = way[place]
        section = plant.sections[x]
        near = [way[place - 1], *way[place + 1:place + 2]]
        used = [leg for leg in OTHER_LEG if section.neighbours.get(leg) in near]
        if section.is_point and len(used) == 1:
            leg = OTHER_LEG[used[0]]
            begin = section.neighbours[leg]
            for guard in dict.fromkeys(guards(plant, route, begin, OPPOSITE[section.faces], x)):
                yield Flank(x, leg, begin, guard)
    yield from far_ends(plant, route)


def far_ends(plant, route):
    """Yields the ways from beyond a path's end on which a protecting point or board keeps vehicles
    out."""
    last = route.path[-1]
    for begin in plant.nexts[last, route.direction]:
        for guard in dict.fromkeys(guards(plant, route, begin, OPPOSITE[route.direction], last)):
            if guard.kind in (POINT, BOARD):
                yield Flank(last, None, begin, guard)


def guards(plant: Plant, route: Route, begin: int, direction: str, to: int) -> Iterator[Guard]:
    """Yields what keeps out a vehicle that would run in a direction from section `begin` to the
    next one, `to`."""
    left, known = [(begin, to)], set()
    while left:
        x, to = left.pop()
        if x in known or x in route.path:
            continue                        # the path's own sections were reached in another way
        known.add(x)
        guard = guard_at(plant, route, x, direction, to)
        if guard:
            yield guard
        else:
            left += [(y, x) for y in plant.nexts[x, OPPOSITE[direction]]]


def guard_at(plant, route, x, direction, to):
    """Returns what keeps a vehicle out at a section, or that nothing does at the network's end."""
    section = plant.sections[x]
    if section.is_point and section.faces == direction:
        wanted = dict(route.wanted).get(x)
        if wanted is not None and wanted != plant.leg_to(x, to):
            return Guard(POINT, x)
    board = plant.board_on.get((x, direction))
    if board is not None:
        return Guard(BOARD if board in route.protecting_boards else CLOSED, board)
    return None if plant.nexts[x, OPPOSITE[direction]] else Guard(NOTHING, x)


def crossing(plant: Plant, x: int) -> int | None:
    """Returns the points whose stem joins that of points `x`, so that their legs cross; or `None`."""
    other = plant.sections[x].neighbours.get("stem")
    is_one = other is not None and plant.sections[other].is_point \
        and plant.sections[other].neighbours.get("stem") == x
    return other if is_one else None


# -- the effect of protecting points

PROTECTS, LEADS_IN, TRAILED, IDLE = "protects", "leads in", "is trailed", "is idle"


def entrances(plant, route):
    """Yields the entrances to a route's path and overlap from beside or beyond: the section
    outside, the vehicle's direction, and the section inside."""
    way = way_of(plant, route)
    for place in range(1, len(way)):
        x = way[place]
        used = way[place - 1:place] + way[place + 1:place + 2]
        for side in OPPOSITE:
            yield from ((y, OPPOSITE[side], x) for y in plant.nexts[x, side] if y not in used)


def leading_in(plant, route, inside, stops):
    """Returns the points on a vehicle's ways into a route's sections `inside`, up to the first
    board. Each has the leg that leads in, or `None` if the vehicle trails it. A way also ends at a
    protecting point of `stops`, a position by point, that leads elsewhere."""
    area, found, known = {*route.path, *route.overlap}, set(), set()
    left = [one for one in entrances(plant, route) if one[2] in inside]
    while left:
        x, direction, to = step = left.pop()
        if step in known or x in area:
            continue
        known.add(step)
        if plant.sections[x].is_point:
            leg = plant.leg_to(x, to) if plant.sections[x].faces == direction else None
            found.add((x, leg))
            if leg is not None and stops.get(x, leg) != leg:
                continue
        if (x, direction) not in plant.board_on:
            left += [(y, direction, x) for y in plant.nexts[x, OPPOSITE[direction]]]
    return found


def effect(plant: Plant, route: Route, x: int, position: str) -> str:
    """Returns a protecting point's effect in a position:

    - LEADS_IN: a vehicle that meets it facing is led into the path, or into the overlap although
      the other position leads away.

    - PROTECTS: such a vehicle is led away.

    - TRAILED: a vehicle comes in over it trailing.

    - IDLE: no vehicle comes in over it before a board."""
    others = {y: wanted for y, wanted in route.protecting_points if y != x}
    if (x, position) in leading_in(plant, route, route.path, others):
        return LEADS_IN
    found = leading_in(plant, route, route.path + route.overlap, {})
    if (x, OTHER_LEG[position]) in found:
        return PROTECTS
    if (x, position) in found:
        return LEADS_IN
    return TRAILED if (x, None) in found else IDLE
