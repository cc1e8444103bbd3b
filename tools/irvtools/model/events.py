"""The page's own model of the thirteen events and of hazards, by the table of
docs/reference/model.md.

No answer depends on it. It draws events and searches for runs; `irv replay` answers each shown run.
Each function of EVENTS changes a state and returns True, or returns False and changes nothing if
the event is not enabled."""

from __future__ import annotations

from typing import Iterable

from irvtools.model.plant import Plant
from irvtools.model.state import State


def mark(_, state, r):
    """Requests a route."""
    if state.mode[r] != "free":
        return False
    state.mode[r] = "marked"
    return True


def allocate(plant, state, r):
    """Locks a route's sections and commands its points."""
    route = plant.routes[r]
    mode, lock, on = state.mode, state.lock, state.on
    if mode[r] != "marked":
        return False
    if any(mode[c] in ("allocating", "locked") for c in route.conflicts):
        return False
    if any(lock[x] != "free" or on[x] for x in route.locked):
        return False
    mode[r] = "allocating"
    for x in route.locked:
        lock[x] = "locked"
    for x, position in route.wanted:
        state.to[x] = position
    return True


def lock_route(plant, state, r):
    """Opens the entry board of a route with points in position."""
    route = plant.routes[r]
    if state.mode[r] != "allocating":
        return False
    if any(state.at[x] != position for x, position in route.wanted):
        return False
    if any(state.aspect[b] != "closed" for b in route.protecting_boards):
        return False
    if any(mode == "locked" and route.source in other.protecting_boards
           for mode, other in zip(state.mode, plant.routes)):
        return False
    state.mode[r] = "locked"
    state.aspect[route.source] = "open"
    return True


def sense(plant, state, r):
    """Detects the next section of a route's path as occupied."""
    route, seen = plant.routes[r], state.seen[r]
    if state.mode[r] not in ("locked", "occupied") or seen >= len(route.path):
        return False
    x = route.path[seen]
    if not state.on[x] or state.lock[x] != "locked":
        return False
    state.lock[x] = "used"
    if seen == 0:
        state.aspect[route.source] = "closed"
    state.seen[r] += 1
    state.mode[r] = "occupied"
    return True


def release(plant, state, r):
    """Releases the first locked section of a path behind the train."""
    rel = state.rel[r]
    if state.mode[r] != "occupied" or rel + 2 > state.seen[r]:
        return False
    x = plant.routes[r].path[rel]
    if state.on[x] or state.lock[x] != "used":
        return False
    state.lock[x] = "free"
    state.rel[r] += 1
    return True


def finish(plant, state, r):
    """Releases all that a used route still holds."""
    route = plant.routes[r]
    length = len(route.path)
    if state.mode[r] != "occupied" or state.seen[r] != length or state.rel[r] + 1 != length:
        return False
    for x in (route.path[-1], *route.beside):
        state.lock[x] = "free"
    state.mode[r], state.seen[r], state.rel[r] = "free", 0, 0
    return True


def cancel(plant, state, r):
    """Cancels a route that is not locked yet."""
    if state.mode[r] not in ("marked", "allocating"):
        return False
    if state.mode[r] == "allocating":
        for x in plant.routes[r].locked:
            state.lock[x] = "free"
    state.mode[r] = "free"
    return True


def throw(plant, state, x):
    """Starts points moving to their commanded position."""
    if not plant.sections[x].is_point or state.at[x] in ("moving", state.to[x]):
        return False
    state.at[x] = "moving"
    return True


def settle(plant, state, x):
    """Ends the movement of points."""
    if not plant.sections[x].is_point or state.at[x] != "moving":
        return False
    state.at[x] = state.to[x]
    return True


def enter(plant, state, x):
    """Lets a train enter at a border."""
    inward = plant.inward.get(x)
    if inward is None or state.on[x] or state.lock[x] != "free":
        return False
    state.add_train(inward, [x])
    return True


def ahead(plant: Plant, state: State, x: int, direction: str) -> int | None:
    """Returns the section ahead, or `None`."""
    section = plant.sections[x]
    if not section.is_point:
        return section.neighbours.get(direction)
    if section.faces != direction:
        return section.neighbours["stem"]
    return section.neighbours.get(state.at[x])


def head(plant, state, x):
    """Moves a train's front to the section ahead."""
    train = next((train for train in state.trains if train[1][-1] == x), None)
    if train is None:
        return False
    direction, body = train
    board = plant.board_on.get((x, direction))
    to = ahead(plant, state, x, direction)
    if to is None or (board is not None and state.aspect[board] != "open"):
        return False
    body.append(to)
    state.on[to] += 1
    if board is not None:
        state.aspect[board] = "closed"
    return True


def tail(_, state, x):
    """Moves a train's rear out of its section."""
    for _, body in state.trains:
        if len(body) > 1 and body[0] == x:
            body.pop(0)
            state.on[x] -= 1
            return True
    return False


def leave(plant, state, x):
    """Lets a train leave the network."""
    for number, (direction, body) in enumerate(state.trains):
        if body == [x]:
            if plant.nexts[x, direction]:
                return False
            state.drop_train(number)
            return True
    return False


EVENTS = {"mark": mark, "allocate": allocate, "lock": lock_route, "sense": sense,
          "release": release, "finish": finish, "cancel": cancel, "throw": throw,
          "settle": settle, "enter": enter, "head": head, "tail": tail, "leave": leave}


def apply(plant: Plant, state: State, event: tuple[str, int]) -> bool:
    """Applies an event to a state; returns whether it is enabled."""
    return EVENTS[event[0]](plant, state, event[1])


def strays(plant, state, x, body):
    """Returns whether a body leads over the leg of points `x` that does not match their position."""
    legs = plant.sections[x].neighbours
    wrong = legs["minus" if state.at[x] == "plus" else "plus"]
    place = body.index(x)
    return wrong in body[max(0, place - 1):place + 2]


def hazard(plant: Plant, state: State) -> tuple[str, int] | None:
    """Returns the hazard of the lowest section, Two before Wrong, as word and section; or `None`."""
    for x, trains in enumerate(state.on):
        if trains > 1:
            return "two", x
        if trains and plant.sections[x].is_point and (state.at[x] == "moving" or any(
                strays(plant, state, x, body) for _, body in state.trains if x in body)):
            return "wrong", x
    return None


def replayed(plant: Plant, events: Iterable[tuple[str, int]],
             state: State | None = None) -> list[State] | None:
    """Returns a run's states from a state or the start, one after each event; `None` if it is not a
    run."""
    states = [State(plant) if state is None else state.copy()]
    for event in events:
        after = states[-1].copy()
        if hazard(plant, states[-1]) or not apply(plant, after, event):
            return None
        states.append(after)
    return states
