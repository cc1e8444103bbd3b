"""Advice about an interlocking table that no rule checks. The page finds it by itself; the program
does not. The network's ways come from `irv table`."""

from __future__ import annotations

import json

from irvtools.model.plant import Board, Plant, Route
from irvtools.rules.column_rules import wrong_on_path


def without_overlap(plant: Plant) -> list[Route]:
    """Returns routes to a board without an overlap behind it."""
    return [route for route in plant.routes if route.destination is not None and not route.overlap]


def overlap_ends(plant: Plant) -> tuple[list[Route], list[Route]]:
    """Returns routes whose overlap does not end at a board for their direction: those with more
    line ahead, and those at the network's end."""
    going_on, outside = [], []
    for route in plant.routes:
        if route.overlap and (route.overlap[-1], route.direction) not in plant.board_on:
            behind = plant.nexts[route.overlap[-1], route.direction]
            (going_on if behind else outside).append(route)
    return going_on, outside


class Ways:
    """The network's ways, as `irv table` prints them, beside the table. `lacking`: ways without a
    route. `other`: routes that are not ways."""

    def __init__(self, plant, report):
        self.plant = plant
        ways = [(plant.board_named[member["source"]],
                 tuple(plant.section_named[name] for name in member["path"]))
                for member in json.loads(report)["routes"]]
        routes = {(route.source, tuple(route.path)) for route in plant.routes}
        self.count = len(ways)
        self.lacking = [way for way in ways if way not in routes]
        self.other = [route for route in plant.routes
                      if (route.source, tuple(route.path)) not in set(ways)]
        self.used = used_borders(plant)

    def to_boards(self):
        """Returns lacking ways from a board not at a dead end to another board."""
        return [way for way in self.lacking if not self.from_dead_end(way) and not self.is_out(way)]

    def over_borders(self):
        """Returns lacking ways out over borders that routes use."""
        return [way for way in self.lacking if not self.from_dead_end(way) and self.is_out(way)
                and way[1][-1] in self.used]

    def at_dead_ends(self):
        """Returns lacking ways to or from a border that no route uses."""
        return [way for way in self.lacking if self.from_dead_end(way)
                or self.is_out(way) and way[1][-1] not in self.used]

    def is_out(self, way):
        """Returns whether a way leads out of the network."""
        return not self.plant.nexts[way[1][-1], self.plant.boards[way[0]].direction]

    def from_dead_end(self, way):
        """Returns whether a way begins at a border that no route uses."""
        board = self.plant.boards[way[0]]
        return self.plant.inward.get(board.section) == board.direction \
            and board.section not in self.used


def used_borders(plant):
    """Returns the borders that routes lead to or begin at."""
    used = {route.path[-1] for route in plant.routes}
    used |= {plant.boards[route.source].section for route in plant.routes
             if plant.inward.get(plant.boards[route.source].section) == route.direction}
    return used & set(plant.inward)


def unused_boards(plant: Plant) -> list[Board]:
    """Returns boards at which no route begins or ends."""
    used = {b for route in plant.routes for b in (route.source, route.destination)}
    return [board for board in plant.boards if board.number not in used]


def points_one_way(plant: Plant) -> tuple[list[tuple[int, str, int]], list[int]]:
    """Returns points that every locking route wants in one position, with it and the number of
    routes; and points that no route locks."""
    wanted = {x: [] for x in plant.points}
    for route in plant.routes:
        for x, position in route.wanted:
            wanted[x].append(position)
    one_way = [(x, found[0], len(found)) for x, found in wanted.items() if len(set(found)) == 1]
    return one_way, [x for x, found in wanted.items() if not found]


def exchanged_legs(plant: Plant) -> list[tuple[int, list[Route]]]:
    """Returns points with two or more routes over them, each of which lists the wrong position for
    its path; with the routes."""
    wrong, over = {}, {}
    for route in plant.routes:
        listed = dict(route.points)
        for x, needed in wrong_on_path(plant, route):
            if x in listed and needed:
                wrong.setdefault(x, []).append(route)
        for x in route.path:
            if plant.sections[x].is_point and x in listed:
                over.setdefault(x, []).append(route)
    return [(x, routes) for x, routes in wrong.items() if len(routes) > 1 and routes == over[x]]


def end_of(plant: Plant, way: tuple[int, tuple[int, ...]]) -> str | None:
    """Returns the name of a way's last board, or `None` if it leads out."""
    board = plant.boards[way[0]]
    last = plant.board_on.get((way[1][-1], board.direction))
    return None if last is None else plant.boards[last].name
