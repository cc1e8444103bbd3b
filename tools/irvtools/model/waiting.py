"""Why trains and routes in use wait, in a state without an automatic event. This is the page's own
reading, by the next event's demands."""

from __future__ import annotations

from irvtools.model.disabled_events import unmet
from irvtools.model.phrases import join
from irvtools.model.plant import Plant
from irvtools.model.state import State

AWAITED = {"marked": "allocate", "allocating": "lock"}      # a route's next event, by its mode


def next_event(plant, state, r):
    """Returns the awaited event of a route in use."""
    if state.mode[r] in AWAITED:
        return AWAITED[state.mode[r]], r
    path = plant.routes[r].path
    if state.seen[r] < len(path):
        return "sense", r
    return ("release" if state.rel[r] + 1 < len(path) else "finish"), r


def route_wait(plant, state, r):
    """Returns a sentence on what a route in use waits for."""
    name = plant.routes[r].name
    board = plant.boards[plant.routes[r].source].name
    if state.mode[r] == "locked":
        return f"{name} is locked, with board {board} {state.aspect[plant.routes[r].source]}. It waits for a " \
               "train there."
    found = unmet(plant, state, next_event(plant, state, r))
    awaited = list(dict.fromkeys(demand.awaited for demand in found if demand.awaited))
    used = " is used by a train and" if state.mode[r] == "occupied" else ""
    if awaited:
        return f"{name}{used} waits for {' and for '.join(awaited)}."
    if found:
        return f"{name} is {state.mode[r]}: {join(demand.unmet for demand in found)}."
    return f"{name} is {state.mode[r]} and can continue."


def train_wait(plant, state, train):
    """Returns a sentence on what a train waits for."""
    direction, body = train
    head = body[-1]
    where = f"The train in {join(plant.name(x) for x in body)}, which runs {direction},"
    board = plant.board_on.get((head, direction))
    if board is None or state.aspect[board] == "open":
        return f"{where} can move on."
    name = plant.boards[board].name
    begin = [(r, route) for r, route in enumerate(plant.routes) if route.source == board]
    asked = [f"{route.name} is {state.mode[r]}" for r, route in begin if state.mode[r] != "free"]
    if asked:
        why = f"{join(asked)}"
    elif begin:
        why = f"no route from there is requested ({join((route.name for _, route in begin), 'or')})"
    else:
        why = "no route begins there"
    return f"{where} waits at {name}, which is closed: {why}."


def waiting(plant: Plant, state: State) -> list[str]:
    """Returns such sentences for all trains and routes in use."""
    return ([train_wait(plant, state, train) for train in state.trains]
            + [route_wait(plant, state, r) for r in range(len(plant.routes)) if state.mode[r] != "free"])
