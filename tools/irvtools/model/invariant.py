"""The page's own reading of the invariant's nine families, by docs/reference/model.md.

Each function of FAMILIES yields a state's violations of its family: a sentence, with sections and
boards. No command of `irv` names a state's families, so the page marks these as its own."""

from __future__ import annotations

from irvtools.model.events import hazard
from irvtools.model.plant import Plant
from irvtools.model.state import State

HOLDING = ("allocating", "locked", "occupied")


def held_places(plant: Plant, state: State) -> dict[int, list[tuple[int, int | None]]]:
    """Returns for each section the routes that hold it, each with the index in its path, or `None`
    beside it."""
    places = {}
    for r, route in enumerate(plant.routes):
        if state.mode[r] in HOLDING:
            for i in range(state.rel[r], len(route.path)):
                places.setdefault(route.path[i], []).append((r, i))
            for x in dict.fromkeys(route.beside):
                places.setdefault(x, []).append((r, None))
    return places


def broken_v1(plant, state):
    """The counts of routes."""
    for r, route in enumerate(plant.routes):
        seen, rel = state.seen[r], state.rel[r]
        right = rel < seen <= len(route.path) if state.mode[r] == "occupied" else not (seen or rel)
        if not right:
            yield (f"route {route.name} is {state.mode[r]}, with {seen} sections detected and "
                   f"{rel} released",
                   route.path, [])


def broken_v2(plant, state):
    """No two routes have one section locked."""
    for x, holders in sorted(held_places(plant, state).items()):
        names = list(dict.fromkeys(plant.routes[r].name for r, _ in holders))
        if len(names) > 1:
            yield f"section {plant.name(x)} is locked by the routes {' and '.join(names)}", [x], []


def broken_v3(plant, state):
    """The lock states of what is locked."""
    for x, holders in sorted(held_places(plant, state).items()):
        for r, i in holders:
            right = "used" if i is not None and i < state.seen[r] else "locked"
            if state.lock[x] != right:
                yield (f"section {plant.name(x)}, which route {plant.routes[r].name} has locked, "
                       f"has the "
                       f"lock state {state.lock[x]}, not {right}", [x], [])


def broken_v4(plant, state):
    """An allocating route's path is vacant."""
    for r, route in enumerate(plant.routes):
        for x in route.path:
            if state.mode[r] == "allocating" and state.on[x]:
                yield (f"a train is in section {plant.name(x)}, on the path of route {route.name}, "
                       "which is allocating", [x], [])


def broken_v5(plant, state):
    """An open board belongs to a locked route whose path is vacant."""
    for b, board in enumerate(plant.boards):
        if state.aspect[b] != "open":
            continue
        locked = [route for r, route in enumerate(plant.routes)
                  if route.source == b and state.mode[r] == "locked"]
        if not any(not any(state.on[x] for x in route.path) for route in locked):
            yield (f"board {board.name} is open, but no locked route from it has a vacant path",
                   [board.section], [b])


def position_words(state, x):
    """Returns the position of points, in words."""
    return "moving" if state.at[x] == "moving" else f"in position {state.at[x]}"


def broken_v6(plant, state):
    """Points of a path are commanded as listed, and in that position once the route is locked."""
    for r, route in enumerate(plant.routes):
        for x, position in route.points:
            if x not in route.path or state.mode[r] not in HOLDING:
                continue
            lies = state.at[x] == position or state.mode[r] == "allocating"
            kept = state.mode[r] == "allocating" or route.path.index(x) >= state.rel[r]
            if kept and not (lies and state.to[x] == position):
                yield (f"points {plant.name(x)} are {position_words(state, x)} and commanded to "
                       f"{state.to[x]}, but "
                       f"route {route.name}, which is {state.mode[r]}, lists {position}", [x], [])


def is_plain(plant, x, direction):
    """Returns whether nothing stops a train at a section's end: no board, and the line goes on."""
    return (x, direction) not in plant.board_on and bool(plant.nexts[x, direction])


def is_led(plant, state, x, direction):
    """Returns whether a route leads a train's front on from a section."""
    for r, route in enumerate(plant.routes):
        passed = state.mode[r] == "occupied" or (
            state.mode[r] == "locked" and state.aspect[route.source] == "closed")
        if route.direction == direction and passed and x in route.path:
            i = route.path.index(x)
            if state.seen[r] <= i + 1 and not any(state.on[y] for y in route.path[i + 1:]):
                return True
    return False


def broken_v7(plant, state):
    """A front that no board stops is on a route with a vacant path ahead."""
    for direction, body in state.trains:
        x = body[-1]
        if is_plain(plant, x, direction) and not is_led(plant, state, x, direction):
            yield (f"the front of a train that runs {direction} is in section {plant.name(x)}, "
                   f"where no board "
                   "stops it, and no route leads it on over a vacant path", [x], [])


def is_kept_for(plant, state, x, direction):
    """Returns whether a route in a train's direction holds a section of its body."""
    return any(route.direction == direction and state.mode[r] in ("locked", "occupied")
               and x in route.path[state.rel[r]:] for r, route in enumerate(plant.routes))


def broken_v8(plant, state):
    """A route locks each section that a train occupies, unless a board stops the train there."""
    for direction, body in state.trains:
        for x in body:
            if is_plain(plant, x, direction) and not is_kept_for(plant, state, x, direction):
                yield (f"a train that runs {direction} is in section {plant.name(x)}, and no route "
                       f"in that "
                       "direction has this section locked for it", [x], [])


def broken_v9(plant, state):
    """The protecting boards of a locked route are closed."""
    for r, route in enumerate(plant.routes):
        for b in route.protecting_boards:
            if state.mode[r] == "locked" and state.aspect[b] != "closed":
                yield (f"board {plant.boards[b].name}, which protects the locked route "
                       f"{route.name}, "
                       "is open", [plant.boards[b].section], [b])


FAMILIES = {"V1": broken_v1, "V2": broken_v2, "V3": broken_v3, "V4": broken_v4, "V5": broken_v5,
            "V6": broken_v6, "V7": broken_v7, "V8": broken_v8, "V9": broken_v9}


def broken(plant: Plant, state: State) -> list[tuple[str, str, list[int], list[int]]]:
    """Returns the violations of the families, lowest first: family, sentence, sections, boards."""
    return [(family, *what) for family, find in FAMILIES.items() for what in find(plant, state)]


def meets(plant: Plant, state: State) -> bool:
    """Returns whether a state meets the invariant. States of this model are always well-formed."""
    return hazard(plant, state) is None and not any(
        next(find(plant, state), None) for find in FAMILIES.values())
