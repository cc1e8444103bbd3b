"""The positions of points that lead along a route's path and overlap."""

from __future__ import annotations

from irvtools.model.plant import OTHER_LEG, Plant, Route


def way_of(plant: Plant, route: Route) -> list[int]:
    """Returns a route's source section, path and overlap."""
    return [plant.boards[route.source].section, *route.path, *route.overlap]


def leading_along(plant: Plant, way: list[int], place: int) -> list[str]:
    """Returns the positions of the point at a place of a route's way that lead along it. There is
    one, or two if the way ends there and trains meet the point facing, or none at a gap."""
    legs = plant.sections[way[place]].neighbours
    before, after = way[place - 1], way[place + 1:place + 2]
    if before == legs["stem"]:
        return [leg for leg in OTHER_LEG if not after or legs[leg] == after[0]]
    if after and after[0] != legs["stem"]:
        return []
    return [leg for leg in OTHER_LEG if legs[leg] == before]
