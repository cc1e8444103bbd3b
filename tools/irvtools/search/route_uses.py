"""Each route's use: a run from the initial state in which one train uses the whole route.

A train enters at a border and runs to the first board. From each board reached, by the shortest
known run, each route is set, used and finished. This brings a train to the next board.
"""

from __future__ import annotations

import heapq
import time

from irvtools.search.single_train import Drive
from irvtools.model.events import apply
from irvtools.model.bitset_events import Facts, Simulation
from irvtools.model.plant import Plant
from irvtools.model.state import State


def arrivals(facts):
    """Yields drives of a train from each border to its stop or the network's end."""
    for x in facts.inward:
        drive = Drive(Simulation(facts), [])
        if drive.enter(x):
            yield drive


def uses(plant: Plant, seconds: float) -> tuple[dict[int, list[tuple[str, int]]], bool]:
    """Returns a run for each route found used, and whether time allowed looking at all."""
    end, facts = time.monotonic() + seconds, Facts(plant)
    found, stood, count = {}, set(), 0
    queue = [(len(drive.run), number, drive) for number, drive in enumerate(arrivals(facts))]
    heapq.heapify(queue)
    while queue and time.monotonic() < end:
        drive = heapq.heappop(queue)[2]
        if drive.board < 0 or drive.board in stood:
            continue
        stood.add(drive.board)
        for r, source in enumerate(facts.source):
            if source != drive.board or r in found:
                continue
            further = drive.copy()
            if further.set(r) and further.use(r):
                found[r] = further.run
                count += 1
                heapq.heappush(queue, (len(further.run), -count, further))
    return found, not queue


def is_use(plant: Plant, run: list[tuple[str, int]], r: int) -> bool:
    """Returns whether a run that ends with a route's finish shows its use. One train passed the
    source, and was in each path section when that was sensed."""
    state, route, train = State(plant), plant.routes[r], None
    source = plant.boards[route.source]
    for word, number in run:
        if (word, number) == ("mark", r):
            train = None
        if word == "head" and number == source.section and state.mode[r] == "locked":
            way, body = next(train for train in state.trains if train[1][-1] == number)
            train = body if way == source.direction else train
        if (word, number) == ("sense", r) and route.path[state.seen[r]] not in (train or []):
            return False
        apply(plant, state, (word, number))
    return train is not None
