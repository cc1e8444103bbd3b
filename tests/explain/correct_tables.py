"""Random tables without mistakes: overlap points lead along the overlap, and protecting points lead
vehicles away. Unlike the tool, it runs vehicles forwards, by names, to test this."""

import random

from irvtools.generators import route_tables
from tests.support import random_networks
from tests.support.random_tables import MOST_ROUTES, overlap


def table(seed):
    """Returns a seed's table, or `None` if its network has no routes, too many, or no protection."""
    value, _ = random_networks.network(seed)
    routes = route_tables.routes(value)
    if isinstance(routes, str) or not 0 < len(routes) <= MOST_ROUTES:
        return None
    chance = random.Random(f"correct {seed}")
    network = route_tables.Network(value["sections"])
    boards = {name: direction for name, _, direction in route_tables.boards_of(value["sections"])}
    for route in routes:
        route["overlap"] = overlap(network, route, boards[route["source"]], chance)
        add_overlap_points(network, route)
        candidates = [{"point": point, "position": leg} for point in points_beside(value, route)
                      for leg in ("plus", "minus") if leads_away(network, route, point, leg)]
        route["protecting_points"] = chance.sample(candidates, min(len(candidates), chance.choice([1, 2])))
    return {"version": 2, "sections": value["sections"], "routes": routes}


def protections(value):
    """Returns the number of a table's protecting points."""
    return sum(len(route["protecting_points"]) for route in value["routes"])


def add_overlap_points(network, route):
    """Lists the points of a route's overlap in positions that lead along it."""
    way = [*route["path"][-1:], *route["overlap"]]
    for place in range(1, len(way)):
        section = network.sections[way[place]]
        if section["kind"] == "point":
            near = [way[place - 1], *way[place + 1:place + 2]]
            legs = [leg for leg in ("minus", "plus") if section[leg] in near]
            route["points"].append({"point": way[place], "position": legs[0] if legs else "minus"})


def points_beside(value, route):
    """Returns the points in neither path nor overlap."""
    return [one["name"] for one in value["sections"]
            if one["kind"] == "point" and one["name"] not in route["path"] + route["overlap"]]


def leads_away(network, route, point, leg):
    """Returns whether a vehicle that meets a point facing reaches path or overlap, before any
    board, only over its other leg."""
    section = network.sections[point]
    other = "minus" if leg == "plus" else "plus"
    return comes_in(network, route, section[other], section["faces"], set()) \
        and not comes_in(network, route, section[leg], section["faces"], set())


def comes_in(network, route, name, direction, known):
    """Returns whether a vehicle that enters a section in a direction can reach path or overlap
    before any board."""
    if name in route["path"] + route["overlap"]:
        return True
    if name in known or network.board(name, direction) is not None:
        return False
    known.add(name)
    return any(comes_in(network, route, other, direction, known) for other in network.beside(name, direction))
