"""The broken column rules C1 to C8 in words: what the table has, and should have. Each function
takes a plant and the places' numbers, and yields sentences."""

from __future__ import annotations

from typing import Iterator

from irvtools.model.plant import OPPOSITE, OTHER_LEG, Plant, Route
from irvtools.model.phrases import join, way_words


def gaps(plant: Plant, route: Route, sections: list[int],
         before: int) -> Iterator[tuple[int, int]]:
    """Yields a list's gaps: the section before, and the listed one."""
    for x in sections:
        if x not in plant.nexts[before, route.direction]:
            yield before, x
        before = x


def leads(plant, sections, direction):
    """Returns whether each section is next to the one before, in a direction."""
    return all(y in plant.nexts[x, direction] for x, y in zip(sections, sections[1:]))


def wrong_way(plant: Plant, route: Route) -> str | None:
    """Returns a sentence about a route against its direction; `None` if its path is right."""
    source, other = plant.boards[route.source], OPPOSITE[route.direction]
    way = [source.section, *route.path]
    if leads(plant, way, other):
        there = plant.board_on.get((source.section, other))
        as_is = f", for example {plant.boards[there].name} on the same section" if there is not None else ""
        return (f"Route {route.name} is in the wrong direction: its entry board {source.name} is "
                f"for trains "
                f"that run {route.direction}, but its path leads {other} from section "
                f"{plant.name(source.section)}. It needs an entry board for trains that run "
                f"{other}{as_is}.")
    if len(route.path) < 2 or not leads(plant, route.path, other):
        return None
    if leads(plant, [source.section, *route.path[::-1]], route.direction):
        return (f"Route {route.name} lists its path in the wrong direction, from its end to its "
                f"beginning. "
                f"Its entry board {source.name} is for trains that run {route.direction}, so it "
                f"should list "
                f"{join(plant.name(x) for x in route.path[::-1])}.")
    return (f"Route {route.name} is in the wrong direction: its entry board {source.name} is for "
            f"trains that "
            f"run {route.direction}, but its path leads {other}, from section "
            f"{plant.name(route.path[0])} to "
            f"section {plant.name(route.path[-1])}.")


def path_gap(plant: Plant, i: int) -> Iterator[str]:
    """C1."""
    route = plant.routes[i]
    source = plant.boards[route.source]
    for before, x in gaps(plant, route, route.path, source.section):
        comes = f"after {plant.name(before)} comes {way_words(plant, before, route.direction)}"
        if x == route.path[0]:
            yield (f"Route {route.name}, which runs {route.direction}, begins at {source.name} on "
                   f"section "
                   f"{plant.name(before)}, but its path starts with {plant.name(x)}; {comes}.")
        else:
            yield (f"Route {route.name}, which runs {route.direction}, lists {plant.name(x)} after "
                   f"{plant.name(before)} in its path; {comes}.")


def path_end(plant: Plant, i: int) -> Iterator[str]:
    """C2."""
    route = plant.routes[i]
    direction = route.direction
    for x in route.path[:-1]:
        board = plant.board_on.get((x, direction))
        if board is not None:
            yield (f"The path of route {route.name} continues past board "
                   f"{plant.boards[board].name} on section "
                   f"{plant.name(x)}, where a train stops. A route must end at the first board for "
                   f"its "
                   "direction.")
    last = route.path[-1]
    board = plant.board_on.get((last, direction))
    named = "null" if route.destination is None else plant.boards[route.destination].name
    if board is not None and board != route.destination:
        yield (f"The path of route {route.name} ends in section {plant.name(last)} at board "
               f"{plant.boards[board].name}, but its destination is {named}; it should be "
               f"{plant.boards[board].name}.")
    elif board is None and plant.nexts[last, direction]:
        yield (f"The path of route {route.name} ends in section {plant.name(last)}, where no board "
               f"stops a "
               f"train that runs {direction}: the train continues to "
               f"{way_words(plant, last, direction)}, "
               "which the route does not lock. The path must continue to a board or out of the "
               "network.")
    elif board is None and route.destination is not None:
        yield (f"The path of route {route.name} leads out of the network at section "
               f"{plant.name(last)}, but "
               f"its destination is {named}; it should be null.")


def runs_on(plant: Plant, i: int) -> bool:
    """Returns whether nothing stops a train at the end of a route's path: C2, as far as safety
    depends on it."""
    route = plant.routes[i]
    last = route.path[-1], route.direction
    return last not in plant.board_on and bool(plant.nexts[last])


def points_wrong(plant: Plant, i: int) -> Iterator[str]:
    """C3."""
    route = plant.routes[i]
    yield from points_of_path_wrong(plant, route)
    positions = dict(route.points)
    for x in route.overlap:
        if plant.sections[x].is_point and x not in positions:
            yield f"Route {route.name} has points {plant.name(x)} in its overlap, but does not list them."


def wrong_on_path(plant: Plant, route: Route) -> Iterator[tuple[int, list[str]]]:
    """Yields a path's points that the route does not list in the needed position, with the
    positions that would do."""
    positions = dict(route.points)
    way = [plant.boards[route.source].section, *route.path]
    for place in range(1, len(way)):
        x = way[place]
        if plant.sections[x].is_point:
            near = [way[place - 1], *way[place + 1:place + 2]]
            needed = [leg for leg in ("plus", "minus") if plant.sections[x].neighbours[leg] in near]
            if positions.get(x) not in needed:
                yield x, needed


def points_of_path_wrong(plant: Plant, route: Route) -> Iterator[str]:
    """C3, as far as safety depends on it."""
    positions = dict(route.points)
    for x, needed in wrong_on_path(plant, route):
        if x not in positions:
            should = f", in position {join(needed, 'or')}" if needed else ""
            yield (f"Route {route.name} leads over points {plant.name(x)}, but does not list them; "
                   f"it "
                   f"should{should}.")
            continue
        leg = positions[x]
        leads = plant.name(plant.sections[x].neighbours[leg])
        other = plant.name(plant.sections[x].neighbours[OTHER_LEG[leg]])
        goes = f"its path leads over {other}: the position should be {OTHER_LEG[leg]}." if needed \
            else f"its path leads neither over {leads} nor over {other}."
        yield (f"Route {route.name} lists points {plant.name(x)} in position {leg}, which leads to "
               f"{leads}, "
               f"but {goes}")


def overlap_gap(plant: Plant, i: int) -> Iterator[str]:
    """C4."""
    route = plant.routes[i]
    for before, x in gaps(plant, route, route.overlap, route.path[-1]):
        yield (f"The overlap of route {route.name}, which runs {route.direction}, lists "
               f"{plant.name(x)} after "
               f"{plant.name(before)}; after {plant.name(before)} comes "
               f"{way_words(plant, before, route.direction)}.")


def one_sided(plant: Plant, i: int, j: int) -> Iterator[str]:
    """C5."""
    one, other = plant.routes[i].name, plant.routes[j].name
    yield f"Route {one} lists {other} as a conflict, but {other} does not list {one}; it should."


def shared(plant: Plant, i: int, j: int) -> list[int]:
    """Returns the sections that both routes lock."""
    return [x for x in plant.routes[i].locked if x in plant.routes[j].locked]


def unlisted_share(plant: Plant, i: int, j: int) -> Iterator[str]:
    """C6."""
    one, other = plant.routes[i].name, plant.routes[j].name
    names = join(plant.name(x) for x in shared(plant, i, j))
    yield (f"Routes {one} and {other} both lock {names}, but {one} does not list {other} as a "
           f"conflict; each "
           "should list the other.")


def bare_border(plant: Plant, i: int) -> Iterator[str]:
    """C7."""
    inward = plant.inward[i]
    yield (f"The network ends at section {plant.name(i)}, but no board stops trains that enter "
           f"there and run "
           f"{inward}. The section needs a board for direction {inward}.")


def unlisted_protection(plant: Plant, i: int, j: int) -> Iterator[str]:
    """C8."""
    one, other = plant.routes[i], plant.routes[j]
    yield (f"Route {other.name} begins at {plant.boards[other.source].name}, a protecting board of "
           f"route "
           f"{one.name}, but {one.name} does not list {other.name} as a conflict; it should.")
