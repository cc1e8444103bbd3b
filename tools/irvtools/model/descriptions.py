"""Events, states and verdicts in words."""

from __future__ import annotations

from irvtools.calls.program import Answer
from irvtools.model.phrases import join
from irvtools.model.plant import Plant
from irvtools.model.state import State

HAZARDS = {"two": "Two trains are in section {}: a collision.",
           "wrong": "A train is on points {}, which are moving or not set for it: a derailment "
                    "risk."}

FAMILIES = {
    "V1": "the counts of a route's detected and released sections fit its mode",
    "V2": "no two routes have the same section locked",
    "V3": "each section that a route has locked has the lock state that the route gave it",
    "V4": "the path of a route that is allocating is vacant",
    "V5": "an open board belongs to a locked route with a vacant path",
    "V6": "the points of a route's path are commanded as the route lists them, and are in that "
          "position "
          "once the route is locked",
    "V7": "a train whose front no board stops is on a route with a vacant path ahead",
    "V8": "a section that a train occupies where no board stops it is locked for the train by a "
          "route",
    "V9": "the protecting boards of a locked route are closed"}


def counted(number: int, word: str) -> str:
    """Returns a number of things."""
    return f"{number} {word}{'' if number == 1 else 's'}"


def hazard_words(plant: Plant, hazard: tuple[str, int]) -> str:
    """Returns a hazard as a sentence."""
    return HAZARDS[hazard[0]].format(plant.name(hazard[1]))


def event_words(plant: Plant, before: State, event: tuple[str, int], after: State) -> str:
    """Returns what an event does, as a sentence."""
    word, number = event
    if word in ROUTE_WORDS:
        return ROUTE_WORDS[word](plant, before, plant.routes[number])
    return SECTION_WORDS[word](plant, before, after, number)


def mark_words(_, __, route):
    """Describes a route's request."""
    return f"Route {route.name} is requested."


def allocate_words(plant, _, route):
    """Describes a route's locks."""
    words = f"Route {route.name} locks {join(plant.name(x) for x in route.locked)}"
    called = [f"{plant.name(x)} to {position}" for x, position in route.wanted]
    return f"{words} and commands points {join(called)}." if called else f"{words}."


def lock_words(plant, _, route):
    """Describes the opening of a route's entry board."""
    return f"Route {route.name} is locked: board {plant.boards[route.source].name} opens."


def sense_words(plant, before, route):
    """Describes the detection."""
    x = route.path[before.seen[route.number]]
    return f"A train is detected in {plant.name(x)}, on the path of route {route.name}."


def release_words(plant, before, route):
    """Describes the release behind a train."""
    x = route.path[before.rel[route.number]]
    return f"Route {route.name} releases {plant.name(x)}, which the train has left."


def finish_words(plant, _, route):
    """Describes the release at the end."""
    rest = join(plant.name(x) for x in (route.path[-1], *route.beside))
    return f"Route {route.name} is finished and releases {rest}."


def cancel_words(_, before, route):
    """Describes a route's cancellation."""
    more = " and releases its sections" if before.mode[route.number] == "allocating" else ""
    return f"Route {route.name} is cancelled{more}."


def throw_words(plant, before, _, x):
    """Describes the start of points' movement."""
    return f"Points {plant.name(x)} start to move to {before.to[x]}."


def settle_words(plant, _, after, x):
    """Describes the end of points' movement."""
    return f"Points {plant.name(x)} are detected in position {after.at[x]}."


def enter_words(plant, _, __, x):
    """Describes a train's entry."""
    return f"A train that runs {plant.inward[x]} enters at {plant.name(x)}."


def head_words(plant, before, after, x):
    """Describes a move of a train's front."""
    place = next(i for i, (_, body) in enumerate(before.trains) if body[-1] == x)
    direction, body = after.trains[place]
    board = plant.board_on.get((x, direction))
    past = f" past board {plant.boards[board].name}, which closes" if board is not None else ""
    return f"The front of the train in {plant.name(x)} moves on to {plant.name(body[-1])}{past}."


def tail_words(plant, _, __, x):
    """Describes a move of a train's rear."""
    return f"The rear of a train leaves {plant.name(x)}."


def leave_words(plant, _, __, x):
    """Describes a train's exit."""
    return f"The train in {plant.name(x)} leaves the area."


ROUTE_WORDS = {"mark": mark_words, "allocate": allocate_words, "lock": lock_words,
               "sense": sense_words, "release": release_words, "finish": finish_words,
               "cancel": cancel_words}
SECTION_WORDS = {"throw": throw_words, "settle": settle_words, "enter": enter_words,
                 "head": head_words, "tail": tail_words, "leave": leave_words}


def state_words(plant: Plant, state: State) -> str:
    """Returns the routes in use, and the points out of their commanded position."""
    words = []
    for r, route in enumerate(plant.routes):
        if state.mode[r] != "free":
            counts = f" ({state.seen[r]} of {len(route.path)} detected, {state.rel[r]} released)" \
                if state.seen[r] else ""
            words.append(f"{route.name} {state.mode[r]}{counts}")
    for x in plant.points:
        if state.at[x] == "moving":
            words.append(f"points {plant.name(x)} move to {state.to[x]}")
        elif state.at[x] != state.to[x]:
            words.append(f"points {plant.name(x)} are commanded to {state.to[x]}")
    return "; ".join(words)


def verdict_words(answer: Answer, is_found: bool = False) -> str:
    """Returns the meaning of verify's answer, in a sentence or two. `is_found`: the search also
    found a run to a hazard."""
    kind = answer.line.partition(" ")[0]
    if is_found and kind in ("breach", "not", "spent"):
        return ("This answer alone leaves open whether a run from the initial state ends in a "
                "hazard. One "
                "does: it is below.")
    if answer.status is None:
        return ("verify was ended before it answered. This says nothing about the interlocking and "
                "does not "
                "change the verdict. --verify-seconds gives it more time.")
    words = {
        "safe": "No run from the initial state, of any length, ends in a hazard: no two trains are "
                "ever in "
                "one section, and no train is on points that are moving or not set for it.",
        "unsafe": "A run from the initial state ends in this hazard, and no run has fewer events. "
                  "The cause "
                  "is a fault of the table or of the network.",
        "breach": "No hazard yet: a run from the initial state reaches a state that violates the "
                  "invariant, so "
                  "the invariant cannot show safety. A greater --depth may find a hazard.",
        "not": "Neither safe nor unsafe is shown: no run of up to that many events from the "
               "initial state ends "
               "in a hazard, but an event leads out of the invariant. The first state of verify's "
               "run may be "
               "unreachable.",
        "spent": "Neither safe nor unsafe is shown: the conflict budget is exhausted. A greater "
                 "--conflicts "
                 "may give the answer.",
        "refused": "The configuration breaks a rule, so verify asked nothing else about it."}
    return words.get(kind, "This is no verdict: verify could not answer.")


def has_trains(plant: Plant, state: State, x: int) -> str:
    """Returns the trains in a section, in words."""
    return join(f"a train that runs {direction} is in {join(plant.name(y) for y in body)}"
                for direction, body in state.trains if x in body)


def kept_by(holders: list[str]) -> str:
    """Returns the routes that have a section locked, in words."""
    if not holders:
        return "no route has it locked"
    return f"route {holders[0]} has it locked" if len(holders) == 1 \
        else f"routes {join(holders)} have it locked"
