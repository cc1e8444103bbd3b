"""The routes of a network, found from its configuration alone.

`routes(conf)` takes a configuration as `json` reads it, whose network breaks no rule N. It returns
its routes as objects of version 2, or the refusal as a text, `G1 boards[i]` or `G2 document`. It
shares nothing with the program.
"""

from __future__ import annotations

import functools
import itertools
from typing import Any

MAX_PATH = 32
MAX_ROUTES = 256


def boards_of(sections: list[dict[str, Any]]) -> list[tuple[str, str, str]]:
    """Returns the boards by number: name, section and direction."""
    found = []
    for section in sections:
        if section["kind"] == "linear":
            for direction in ("down", "up"):
                name = section["board_" + direction]
                if name is not None:
                    found.append((name, section["name"], direction))
    return found


class Network:
    """A network by names."""

    def __init__(self, sections):
        self.sections = {section["name"]: section for section in sections}

    def beside(self, name, direction):
        """Returns the names next to a section on a side, plus before minus."""
        section = self.sections[name]
        if section["kind"] == "linear":
            return [section[direction]] if section[direction] is not None else []
        if section["faces"] == direction:
            return [section["plus"], section["minus"]]
        return [section["stem"]]

    def board(self, name, direction):
        """Returns the board on a section for a direction, or `None`."""
        return self.sections[name].get("board_" + direction)

    def ends(self, name, direction):
        """Returns whether a way ends at a section."""
        return self.board(name, direction) is not None or not self.beside(name, direction)

    def on_and_on(self, direction):
        """Returns a predicate: `count` sections lead on from a section, and no way ends at any."""
        @functools.lru_cache(maxsize=None)
        def leads(name, count):
            return count == 0 or any(not self.ends(other, direction) and leads(other, count - 1)
                                     for other in self.beside(name, direction))
        return leads

    def ways(self, name, direction):
        """Yields the ways from a section."""
        for other in self.beside(name, direction):
            if self.ends(other, direction):
                yield [other]
            else:
                for rest in self.ways(other, direction):
                    yield [other] + rest

    def points(self, before, path):
        """Returns the points of a path with their positions."""
        found = []
        for i, name in enumerate(path):
            section = self.sections[name]
            if section["kind"] == "point":
                around = [before if i == 0 else path[i - 1]] + path[i + 1:i + 2]
                position = "plus" if section["plus"] in around else "minus"
                found.append({"point": name, "position": position})
        return found


def routes(conf: dict[str, Any]) -> list[dict[str, Any]] | str:
    """Returns the list of routes, or the refusal."""
    network = Network(conf["sections"])
    boards = boards_of(conf["sections"])
    leads = {direction: network.on_and_on(direction) for direction in ("up", "down")}
    for number, (_, section, direction) in enumerate(boards):
        if leads[direction](section, MAX_PATH):
            return f"G1 boards[{number}]"
    every = ((name, section, direction, path) for name, section, direction in boards
             for path in network.ways(section, direction))
    found = list(itertools.islice(every, MAX_ROUTES + 1))
    if len(found) > MAX_ROUTES:
        return "G2 document"
    on_path = [set(path) for _, _, _, path in found]
    return [{"name": f"g{n}", "source": name, "destination": network.board(path[-1], direction),
             "path": path, "overlap": [], "points": network.points(section, path),
             "conflicts": [f"g{k}" for k, other in enumerate(on_path)
                           if k != n and not on_path[n].isdisjoint(other)],
             "protecting_points": [], "protecting_boards": []}
            for n, (name, section, direction, path) in enumerate(found)]


def with_routes(conf: dict[str, Any]) -> dict[str, Any]:
    """Returns the configuration of version 2 with the same network and its routes. No rule G may be
    broken."""
    found = routes(conf)
    if isinstance(found, str):
        raise ValueError(f"the routes are refused: {found}")
    return {"version": 2, "sections": conf["sections"], "routes": found}
