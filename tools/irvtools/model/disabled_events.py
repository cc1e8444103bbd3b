"""The unmet demands of an event: why it is not enabled.

This is the page's own reading of the table of docs/reference/model.md, and the counterpart of
`events.py`: an event is enabled exactly if all its demands are met.

Each function of DEMANDS takes a plant, a state and a number, and yields unmet demands. A demand
names what the state has, and what is waited for (`None` if waiting does not help)."""

from __future__ import annotations

from collections import namedtuple

from irvtools.model.events import ahead
from irvtools.model.invariant import held_places
from irvtools.model.phrases import join
from irvtools.model.plant import Plant
from irvtools.model.state import State
from irvtools.model.descriptions import has_trains, kept_by

Demand = namedtuple("Demand", "unmet awaited")


def unmet(plant: Plant, state: State, event: tuple[str, int]) -> list[Demand]:
    """Returns an event's unmet demands."""
    return list(DEMANDS[event[0]](plant, state, event[1]))


def unmet_words(plant: Plant, state: State, event: tuple[str, int]) -> str:
    """Returns these demands as a list in words."""
    return "; ".join(demand.unmet for demand in unmet(plant, state, event))


def in_mode(plant, state, r, *modes):
    """Demands that a route is in one of `modes`."""
    if state.mode[r] not in modes:
        yield Demand(f"route {plant.routes[r].name} is {state.mode[r]}, not {join(modes, 'or')}",
                     None)


def vacant(plant, state, x, what="section"):
    """Demands that a section has no train."""
    if state.on[x]:
        yield Demand(f"{what} {plant.name(x)} is occupied: {has_trains(plant, state, x)}",
                     f"{plant.name(x)}, which a train occupies")


def unlocked(plant, state, x):
    """Demands that a section's lock is free."""
    if state.lock[x] != "free":
        holders = [plant.routes[r].name for r, _ in held_places(plant, state).get(x, [])]
        yield Demand(f"the lock of section {plant.name(x)} is {state.lock[x]}, not free: "
                     f"{kept_by(holders)}",
                     f"{plant.name(x)}, which {join(holders) or 'no route'} has locked")


def locked_as(plant, state, x, lock):
    """Demands that a section's lock is `lock`."""
    if state.lock[x] != lock:
        yield Demand(f"the lock of section {plant.name(x)} is {state.lock[x]}, not {lock}", None)


def of_mark(plant, state, r):
    """A route is requested."""
    yield from in_mode(plant, state, r, "free")


def of_allocate(plant, state, r):
    """A route locks its sections."""
    route = plant.routes[r]
    yield from in_mode(plant, state, r, "marked")
    for c in route.conflicts:
        if state.mode[c] in ("allocating", "locked"):
            yield Demand(f"its conflict {plant.routes[c].name} is {state.mode[c]}",
                         f"its conflict {plant.routes[c].name}, which is {state.mode[c]}")
    for x in route.locked:
        yield from unlocked(plant, state, x)
        yield from vacant(plant, state, x)


def of_lock(plant, state, r):
    """A route's board opens."""
    route = plant.routes[r]
    yield from in_mode(plant, state, r, "allocating")
    for x, position in route.wanted:
        if state.at[x] != position:
            now = "moving" if state.at[x] == "moving" else f"in position {state.at[x]}"
            yield Demand(f"points {plant.name(x)} are {now}, but route {route.name} needs "
                         f"{position}",
                         f"points {plant.name(x)}, which are {now}, to be in position {position}")
    for b in route.protecting_boards:
        if state.aspect[b] != "closed":
            name = plant.boards[b].name
            yield Demand(f"board {name}, which protects route {route.name}, is {state.aspect[b]}",
                         f"board {name}, which protects it, to close")
    for other, mode in zip(plant.routes, state.mode):
        if mode == "locked" and route.source in other.protecting_boards:
            name = plant.boards[route.source].name
            yield Demand(f"route {other.name} is locked, and {name} is one of its protecting "
                         f"boards",
                         f"route {other.name}, which keeps {name} closed")


def of_sense(plant, state, r):
    """The next section of a path is detected as occupied."""
    route, seen = plant.routes[r], state.seen[r]
    yield from in_mode(plant, state, r, "locked", "occupied")
    if seen >= len(route.path):
        yield Demand(f"all sections of the path of route {route.name} are detected already", None)
        return
    x = route.path[seen]
    if not state.on[x]:
        yield Demand(f"no train is in section {plant.name(x)}, the next section of its path",
                     f"a train in {plant.name(x)}")
    yield from locked_as(plant, state, x, "locked")


def of_release(plant, state, r):
    """The first locked section of a path is released."""
    route, rel = plant.routes[r], state.rel[r]
    yield from in_mode(plant, state, r, "occupied")
    if rel + 2 > state.seen[r]:
        if rel + 1 >= len(route.path):
            yield Demand(f"only the last section of the path of route {route.name} is left, which "
                         f"finish releases",
                         None)
        else:
            x = route.path[rel + 1]
            yield Demand(f"section {plant.name(x)} of its path is not detected yet",
                         f"a train in {plant.name(x)}")
    if rel < len(route.path):
        yield from vacant(plant, state, route.path[rel])
        yield from locked_as(plant, state, route.path[rel], "used")


def of_finish(plant, state, r):
    """A route releases all that is left."""
    route, length = plant.routes[r], len(plant.routes[r].path)
    yield from in_mode(plant, state, r, "occupied")
    if state.seen[r] != length:
        yield Demand(f"{state.seen[r]} of {length} sections of the path of route {route.name} are "
                     f"detected", f"a train in "
                                  f"{plant.name(route.path[min(state.seen[r], length - 1)])}")
    if state.rel[r] + 1 != length:
        yield Demand(f"{state.rel[r]} sections of the path of route {route.name} are released, not "
                     f"{length - 1}",
                     None)


def of_cancel(plant, state, r):
    """A route is cancelled."""
    yield from in_mode(plant, state, r, "marked", "allocating")


def of_throw(plant, state, x):
    """Points start to move."""
    if not plant.sections[x].is_point:
        yield Demand(f"section {plant.name(x)} has no points", None)
    elif state.at[x] == "moving":
        yield Demand(f"points {plant.name(x)} are moving already", None)
    elif state.at[x] == state.to[x]:
        yield Demand(f"points {plant.name(x)} are in position {state.at[x]}, as commanded", None)


def of_settle(plant, state, x):
    """Points reach their position."""
    if not plant.sections[x].is_point:
        yield Demand(f"section {plant.name(x)} has no points", None)
    elif state.at[x] != "moving":
        yield Demand(f"points {plant.name(x)} are not moving: they are in position "
                     f"{state.at[x]}", None)


def of_enter(plant, state, x):
    """A train enters."""
    if x not in plant.inward:
        yield Demand(f"section {plant.name(x)} is not a border: trains enter at the ends of the "
                     f"network",
                     None)
    yield from vacant(plant, state, x)
    yield from unlocked(plant, state, x)


def of_head(plant, state, x):
    """A train's front moves on."""
    train = next((train for train in state.trains if train[1][-1] == x), None)
    if train is None:
        yield Demand(f"no train has its front in section {plant.name(x)}", None)
        return
    direction = train[0]
    board = plant.board_on.get((x, direction))
    if board is not None and state.aspect[board] != "open":
        name = plant.boards[board].name
        yield Demand(f"board {name}, at which the train waits, is {state.aspect[board]}",
                     f"board {name} to open")
    if ahead(plant, state, x, direction) is None:
        moves = plant.sections[x].is_point and bool(plant.nexts[x, direction])
        yield Demand(f"points {plant.name(x)} are moving under the train's front" if moves else
                     f"the network ends at section {plant.name(x)}", None)


def of_tail(plant, state, x):
    """A train's rear follows."""
    if not any(len(body) > 1 and body[0] == x for _, body in state.trains):
        yield Demand(f"no train of two or more sections has its rear in {plant.name(x)}", None)


def of_leave(plant, state, x):
    """A train leaves."""
    train = next((train for train in state.trains if train[1] == [x]), None)
    if train is None:
        yield Demand(f"no train is in section {plant.name(x)} only", None)
    elif plant.nexts[x, train[0]]:
        yield Demand(f"the network continues after section {plant.name(x)}: trains leave at its "
                     f"ends",
                     None)


DEMANDS = {"mark": of_mark, "allocate": of_allocate, "lock": of_lock, "sense": of_sense,
           "release": of_release, "finish": of_finish, "cancel": of_cancel, "throw": of_throw,
           "settle": of_settle, "enter": of_enter, "head": of_head, "tail": of_tail,
           "leave": of_leave}
