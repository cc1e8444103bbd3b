"""Reduces a state to what one event needs to lead out of the invariant.

`verify` answers `not inductive` with a run from some state, often with unrelated trains and routes.
The reduced state is the page's own, and easy to read.
"""

from __future__ import annotations

import time
from typing import Iterator

from irvtools.model.events import apply
from irvtools.model.invariant import HOLDING, meets
from irvtools.model.plant import Plant
from irvtools.model.state import State


def leads_out(plant: Plant, state: State, event: tuple[str, int]) -> bool:
    """Returns whether a state meets the invariant, and an event leads from it to one that doesn't."""
    if not meets(plant, state):
        return False
    after = state.copy()
    return apply(plant, after, event) and not meets(plant, after)


def freed(plant, state, r):
    """Returns a state in which a route, and what it alone held, is free."""
    state = state.copy()
    state.mode[r], state.seen[r], state.rel[r] = "free", 0, 0
    others = {x for o, route in enumerate(plant.routes) if state.mode[o] in HOLDING
              for x in route.path[state.rel[o]:] + route.beside}
    for x in plant.routes[r].locked:
        if x not in others:
            state.lock[x] = "free"
    if not any(state.mode[o] == "locked" and route.source == plant.routes[r].source
               for o, route in enumerate(plant.routes)):
        state.aspect[plant.routes[r].source] = "closed"
    return state


def without_train(state, number):
    """Returns a state without a train."""
    state = state.copy()
    state.drop_train(number)
    return state


def with_part(state, part, number, value):
    """Returns a state with another value at one place."""
    state = state.copy()
    getattr(state, part)[number] = value
    return state


def without_tail(state, number):
    """Returns a state with a shorter train."""
    state = state.copy()
    state.on[state.trains[number][1].pop(0)] -= 1
    return state


def smaller(plant: Plant, state: State) -> Iterator[State]:
    """Yields smaller states, boldest first."""
    used = [r for r in range(len(plant.routes)) if state.mode[r] != "free"]
    for number in range(len(state.trains)):
        yield without_train(state, number)
        for r in used:
            yield freed(plant, without_train(state, number), r)
    for r in used:
        yield freed(plant, state, r)
        if state.mode[r] == "marked":
            yield with_part(state, "mode", r, "free")
    for number, (_, body) in enumerate(state.trains):
        if len(body) > 1:
            yield without_tail(state, number)
    begin = State(plant)
    for part in ("lock", "aspect", "at", "to"):
        for number, value in enumerate(getattr(begin, part)):
            if getattr(state, part)[number] != value:
                yield with_part(state, part, number, value)
    for x in plant.points:
        if (state.at[x], state.to[x]) == ("minus", "minus"):
            yield with_part(with_part(state, "at", x, "plus"), "to", x, "plus")


def shrunk(plant: Plant, state: State, event: tuple[str, int],
           seconds: float = 10) -> State | None:
    """Returns the state reduced as far as time allows, or `None` if by the page's own reading the
    event doesn't lead out of the invariant."""
    if not leads_out(plant, state, event):
        return None
    end = time.monotonic() + seconds
    moved = True
    while moved and time.monotonic() < end:
        moved = False
        for trial in smaller(plant, state):
            if leads_out(plant, trial, event):
                state, moved = trial, True
                break
            if time.monotonic() > end:
                break
    return state
