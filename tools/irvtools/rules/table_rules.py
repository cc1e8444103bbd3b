"""The broken table rules R1 to R8 in words: what the table has, and should have. Each function
takes a plant and a route's number, and yields sentences."""

from __future__ import annotations

from typing import Iterator

from irvtools.model.plant import Plant


def same_route(plant: Plant, i: int) -> Iterator[str]:
    """R1."""
    name = plant.routes[i].name
    yield (f"Route number {i} is called {name}, like route number {plant.route_named[name]}. Each "
           f"route "
           "needs its own name.")


def no_source(plant: Plant, i: int) -> Iterator[str]:
    """R2."""
    route = plant.routes[i]
    yield f"Route {route.name} begins at {route.member['source']}, but no board has that name."


def wrong_sections(plant: Plant, i: int) -> Iterator[str]:
    """R3."""
    route = plant.routes[i]
    names = [(list_, name) for list_ in ("path", "overlap") for name in route.member[list_]]
    for list_, name in dict.fromkeys(names):
        if name not in plant.section_named:
            yield f"The {list_} of route {route.name} lists {name}, but no section has that name."
    words = [name for _, name in names]
    for name in dict.fromkeys(words):
        if words.count(name) > 1:
            yield (f"The path and overlap of route {route.name} list section {name} "
                   f"{words.count(name)} times; "
                   "they may list it once.")


def wrong_points(plant: Plant, i: int) -> Iterator[str]:
    """R4."""
    route = plant.routes[i]
    yield from point_faults(plant, route, "points", "among the points")
    ways = route.member["path"] + route.member["overlap"]
    for name in point_names(route, "points"):
        if is_point(plant, name) and name not in ways:
            yield (f"Route {route.name} lists points {name}, which are neither in its path nor in "
                   f"its "
                   "overlap.")


def point_names(route, member):
    """Returns the points that a route lists, each once."""
    return dict.fromkeys(entry["point"] for entry in route.member.get(member, []))


def is_point(plant, name):
    """Returns whether a name is that of points."""
    return name in plant.section_named and plant.sections[plant.section_named[name]].is_point


def point_faults(plant, route, member, where):
    """Yields the faults of one list of points."""
    names = [entry["point"] for entry in route.member.get(member, [])]
    for name in dict.fromkeys(names):
        if not is_point(plant, name):
            what = "is a linear section" if name in plant.section_named else "is not a section"
            yield f"Route {route.name} lists {name} {where}, but {name} {what}."
        if names.count(name) > 1:
            yield f"Route {route.name} lists points {name} {names.count(name)} times {where}."


def no_destination(plant: Plant, i: int) -> Iterator[str]:
    """R5."""
    route = plant.routes[i]
    yield (f"Route {route.name} ends at {route.member['destination']}, but no board has that name. "
           f"The "
           "destination must be a board, or null if the route leads out of the network.")


def wrong_conflicts(plant: Plant, i: int) -> Iterator[str]:
    """R6."""
    route = plant.routes[i]
    names = route.member["conflicts"]
    for name in dict.fromkeys(names):
        if name not in plant.route_named:
            yield f"Route {route.name} lists {name} as a conflict, but no route has that name."
        elif plant.route_named[name] == i:
            yield f"Route {route.name} lists itself as a conflict."
        if names.count(name) > 1:
            yield f"Route {route.name} lists {name} {names.count(name)} times as a conflict."


def wrong_protecting_points(plant: Plant, i: int) -> Iterator[str]:
    """R7."""
    route = plant.routes[i]
    yield from point_faults(plant, route, "protecting_points", "among the protecting points")
    for name in point_names(route, "protecting_points"):
        for list_ in ("path", "overlap"):
            if name in route.member[list_]:
                yield (f"Route {route.name} lists {name} as protecting points, but they are in its "
                       f"{list_}. "
                       "Protecting points are outside path and overlap.")


def wrong_protecting_boards(plant: Plant, i: int) -> Iterator[str]:
    """R8."""
    route = plant.routes[i]
    names = route.member.get("protecting_boards", [])
    for name in dict.fromkeys(names):
        if name not in plant.board_named:
            yield f"Route {route.name} lists {name} as a protecting board, but no board has that name."
        elif name == route.member["source"]:
            yield f"Route {route.name} lists its own entry board {name} as a protecting board."
        if names.count(name) > 1:
            yield f"Route {route.name} lists {name} {names.count(name)} times as a protecting board."
