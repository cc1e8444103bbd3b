"""Random interlocking tables over random networks, the same for each seed: routes with random
overlaps, protection, and some point and conflict entries."""

import random

from irvtools.generators import route_tables
from tests.support import random_networks

MOST_ROUTES = 40


def table(seed):
    """Returns a seed's table, or `None` if its network has no routes or too many."""
    value, _ = random_networks.network(seed)
    routes = route_tables.routes(value)
    if isinstance(routes, str) or not 0 < len(routes) <= MOST_ROUTES:
        return None
    chance = random.Random(f"table {seed}")
    network = route_tables.Network(value["sections"])
    boards = {name: direction for name, _, direction in route_tables.boards_of(value["sections"])}
    for route in routes:
        route["overlap"] = overlap(network, route, boards[route["source"]], chance)
        protect(value, route, boards, chance)
        route["points"] = [one for one in route["points"] if chance.random() < 0.7]
        names = [other["name"] for other in routes if other is not route]
        route["conflicts"] = chance.sample(names, min(len(names), chance.choice([0, 0, 1, 3])))
    return {"version": 2, "sections": value["sections"], "routes": routes}


def tables(count):
    """Yields `count` random tables, each with its seed."""
    seed, found = 0, 0
    while found < count:
        value = table(seed)
        if value is not None:
            yield seed, value
            found += 1
        seed += 1


def overlap(network, route, direction, chance):
    """Returns a random overlap of a route."""
    found, last = [], route["path"][-1]
    for _ in range(chance.choice([0, 0, 1, 1, 2, 3])):
        ahead = network.beside(last, direction)
        if not ahead:
            break
        last = chance.choice(ahead)
        found.append(last)
    return found


def protect(value, route, boards, chance):
    """Gives a route random protecting points and boards."""
    used = {*route["path"], *route["overlap"]}
    points = [one["name"] for one in value["sections"] if one["kind"] == "point" and one["name"] not in used]
    chosen = chance.sample(points, min(len(points), chance.choice([0, 0, 1, 2])))
    route["protecting_points"] = [{"point": name, "position": chance.choice(("plus", "minus"))}
                                  for name in chosen]
    others = [name for name in boards if name != route["source"]]
    route["protecting_boards"] = chance.sample(others, min(len(others), chance.choice([0, 0, 1, 2])))
