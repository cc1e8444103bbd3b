"""An independent random search, which shares only the event model with `tools/search`.

It runs a few random routes and boundary sections, with other weights. It is slow, and ignores which
routes affect each other. A run that it finds shows that a table is unsafe.
"""

from __future__ import annotations

import random
import time

from irvtools.model.events import apply, hazard
from irvtools.model.state import State

MOST_EVENTS = 240
NEXT = {"free": ("mark",), "marked": ("allocate", "cancel"), "allocating": ("lock", "cancel"),
        "locked": ("sense",), "occupied": ("release", "finish", "sense")}
SELDOM = ("cancel",)    # used at one turn in ten


def plain_search(plant, seed: int, seconds: float) -> list | None:
    """Returns a run to a hazard, or `None` if none was found in `seconds`."""
    chance, end = random.Random(seed), time.monotonic() + seconds
    while time.monotonic() < end:
        run = a_walk(plant, chance)
        if run is not None:
            return run
    return None


def a_walk(plant, chance):
    """Returns a random run if it ends in a hazard, otherwise `None`."""
    routes = chance.sample(range(len(plant.routes)), min(len(plant.routes), chance.randint(2, 9)))
    borders = chance.sample(list(plant.inward), chance.randint(1, min(len(plant.inward), 4)))
    state, run = State(plant), []
    eager, lazy = chance.choice((0.1, 0.3, 0.6)), chance.choice((0.0, 0.3, 0.8))
    while len(run) < MOST_EVENTS:
        events = events_of(plant, state, routes, borders)
        chance.shuffle(events)
        events.sort(key=lambda event: (event[0] in SELDOM and chance.random() > 0.1)
                    + 2 * (event[0] in ("mark", "enter") and chance.random() > eager)
                    + 2 * (event[0] == "tail" and chance.random() < lazy))
        event = next((event for event in events if apply(plant, state, event)), None)
        if event is None:
            return None
        run.append(event)
        if hazard(plant, state):
            return run
    return None


def events_of(plant, state, routes, borders):
    """Returns the events that may be enabled."""
    found = [(word, r) for r in routes for word in NEXT[state.mode[r]]]
    found += [("settle" if state.at[x] == "moving" else "throw", x) for x in plant.points
              if state.at[x] != state.to[x]]
    found += [("enter", x) for x in borders]
    for _, body in state.trains:
        found.append(("head", body[-1]))
        found.append(("tail", body[0]) if len(body) > 1 else ("leave", body[0]))
    return found
