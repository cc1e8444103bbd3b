"""Why two routes exclude each other: the conflicts of C6 and C8, in words."""

from __future__ import annotations

from irvtools.model.plant import Plant, Route

OPPOSING, SECTION, POINT = "opposing", "shared section", "shared point"
OVERLAP, FLANK, LISTED = "overlap", "flank", "listed only"


def on_paths(plant: Plant, one: Route, other: Route) -> list[str]:
    """Returns what two paths have in common, in words."""
    common = [x for x in one.path if x in other.path]
    if common and one.direction != other.direction:
        return [OPPOSING]
    kinds = {plant.sections[x].is_point for x in common}
    return [word for is_point, word in ((False, SECTION), (True, POINT)) if is_point in kinds]


def needs_overlap(one: Route, other: Route) -> bool:
    """Returns whether two routes' paths and overlaps share a section that is in an overlap."""
    ways = [set(route.path + route.overlap) for route in (one, other)]
    return bool(ways[0] & ways[1] & set(one.overlap + other.overlap))


def needs_flank(one: Route, other: Route) -> bool:
    """Returns whether a protecting point or board of one route concerns the other."""
    points = [{x for x, _ in route.protecting_points} for route in (one, other)]
    return bool(points[0] & set(other.locked) or points[1] & set(one.locked)
                or other.source in one.protecting_boards or one.source in other.protecting_boards)


def reasons(plant: Plant, i: int, j: int) -> list[str]:
    """Returns why routes `i` and `j` exclude each other, most important first; nothing if no rule
    demands it."""
    one, other = plant.routes[i], plant.routes[j]
    found = on_paths(plant, one, other)
    if needs_overlap(one, other):
        found.append(OVERLAP)
    if needs_flank(one, other):
        found.append(FLANK)
    return found


def demanded(plant: Plant) -> dict[tuple[int, int], list[str]]:
    """Returns the pairs of routes that C6 or C8 demands as conflicts, lower number first, with
    reasons."""
    count = range(len(plant.routes))
    pairs = {(i, j): reasons(plant, i, j) for i in count for j in count if i < j}
    return {pair: why for pair, why in pairs.items() if why}
