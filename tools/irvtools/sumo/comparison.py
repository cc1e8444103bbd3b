"""Compares a table's routes with SUMO's driveways, by names.

Two driveways meet if they share a section or points. SUMO keeps two trains apart if they begin at
one signal. It also does if its list of lanes and links for one driveway has a lane or the link of
the other.
"""

from itertools import combinations
from typing import Dict, List, Set

from irvtools.sumo.driveways import Driveway
from irvtools.sumo.ways import Way

LIMITS = ("SUMO has no point positions, no overlaps and no protecting points or boards: none of "
          "these is compared.")


def shown(way: Way) -> str:
    """Returns a way for a line of the report."""
    return f"from {way[0]} over {' '.join(way[1])}"


def locked(route: dict) -> Set[str]:
    """Returns the sections that a route locks."""
    points = {one["point"] for one in route.get("protecting_points", [])}
    return set(route["path"]) | set(route["overlap"]) | points


def is_beyond_sumo(one: dict, other: dict) -> bool:
    """Returns whether two routes exclude each other by overlap or protection, which SUMO lacks."""
    boards = set(one.get("protecting_boards", [])) | set(other.get("protecting_boards", []))
    return bool((locked(one) & locked(other)) - (set(one["path"]) & set(other["path"]))) \
        or one["source"] in boards or other["source"] in boards


class Comparison:
    """Two programs' statements about one network, with a line for each difference."""

    def __init__(self, routes: List[dict], found: Dict[Way, List[Driveway]]):
        self.routes, self.found = routes, found
        ways = {(route["source"], tuple(route["path"])) for route in routes}
        self.left_out = [f"the table leaves out the way {shown(way)}"
                         for way in sorted(found) if way not in ways]
        self.unknown = [f"SUMO has no driveway for route {route['name']}, {shown(way)}"
                        for route in routes for way in [(route["source"], tuple(route["path"]))]
                        if way not in found]
        self.only_sumo: List[str] = []
        self.only_table: List[str] = []
        self.pairs = self.further = self.beyond = 0
        self.known = [route for route in routes
                      if (route["source"], tuple(route["path"])) in found]
        for one, other in combinations(self.known, 2):
            self.judge(one, other)

    def driveway(self, route: dict) -> Driveway:
        """Returns the driveway of a route."""
        return self.found[route["source"], tuple(route["path"])][0]

    def judge(self, one: dict, other: dict) -> None:
        """Compares the statements about a pair of routes."""
        self.pairs += 1
        first, second = self.driveway(one), self.driveway(other)
        meets = bool(set(first.path) & set(second.path))
        is_apart = first.start == second.start or first.excludes(second) or \
            second.excludes(first)
        name = f"{one['name']} and {other['name']}"
        for route, partner in ((one, other), (other, one)):
            if meets and partner["name"] not in route["conflicts"]:
                self.only_sumo.append(f"route {route['name']} does not list the conflict with "
                                      f"{partner['name']}: their driveways meet")
        is_listed = other["name"] in one["conflicts"] or one["name"] in other["conflicts"]
        if is_listed and not is_apart:
            if is_beyond_sumo(one, other):
                self.beyond += 1
            else:
                self.only_table.append(f"routes {name} are conflicts, but SUMO does not keep "
                                       f"their trains apart")
        if not is_listed and not meets and is_apart:
            self.further += 1

    def differences(self) -> List[str]:
        """Returns a line for each difference."""
        return self.left_out + self.unknown + self.only_sumo + self.only_table

    def summary(self) -> List[str]:
        """Returns the lines of counts."""
        lines = [f"{len(self.routes)} routes, {len(self.found)} driveways, "
                 f"{len(self.known)} routes have a driveway of the same way",
                 f"{self.pairs} pairs of routes: {len(self.only_sumo)} conflicts are missing in "
                 f"the table, {len(self.only_table)} in SUMO"]
        if self.further:
            lines.append(f"{self.further} further pairs are kept apart by SUMO only: trains that "
                         f"would meet head on behind the end of a route, and flank protection")
        if self.beyond:
            lines.append(f"{self.beyond} conflicts come from overlaps or protection")
        return lines
