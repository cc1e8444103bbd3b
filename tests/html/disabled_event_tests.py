"""Tests of events' unmet demands, and of what trains and routes wait for, derived by hand from
docs/reference/model.md."""

import json
import random

from irvtools.model import events
from irvtools.model.disabled_events import unmet, unmet_words
from irvtools.html.run_section import first_refused
from tests.support.html_reports import TOP
from irvtools.model.plant import Plant
from tests.support.report_plants import plants
from tests.support.random_runs import a_run, all_events, muddled
from irvtools.model.state import State, read_event
from irvtools.model.waiting import waiting
from tests.support.harness import test_case

MANY = 10
SET_IN1 = "mark in1, allocate in1, lock in1"

# in examples/platforms.json: earlier events, an event that they do not enable, and the reason
PLATFORMS = [
    ("mark in1", "mark in1", "route in1 is marked, not free"),
    ("", "allocate in1", "route in1 is free, not marked"),
    ("mark in1, allocate in1, mark in2", "allocate in2",
     "its conflict in1 is allocating; the lock of section w1 is locked, not free: route in1 has it "
     "locked"),
    ("enter pl1, mark in1", "allocate in1",
     "section pl1 is occupied: a train that runs down is in pl1"),
    ("", "lock in1", "route in1 is free, not allocating"),
    ("mark in2, allocate "
     "in2", "lock in2", "points w1 are in position plus, but route in2 needs minus"),
    ("mark in2, allocate in2, throw "
     "w1", "lock in2", "points w1 are moving, but route in2 needs minus"),
    (SET_IN1, "sense in1", "no train is in section w1, the next section of its path"),
    (SET_IN1 + ", enter line, head line, sense in1, head w1, sense in1", "sense in1",
     "all sections of the path of route in1 are detected already"),
    (SET_IN1 + ", enter line, head line, sense in1", "release in1",
     "section pl1 of its path is not detected yet; section w1 is occupied: a train that runs up is "
     "in line "
     "and w1"),
    (SET_IN1 + ", enter line, head line, sense in1", "finish in1",
     "1 of 2 sections of the path of route in1 are detected; 0 sections of the path of route in1 "
     "are "
     "released, not 1"),
    (SET_IN1, "cancel in1", "route in1 is locked, not marked or allocating"),
    ("", "throw w1", "points w1 are in position plus, as commanded"),
    ("mark in2, allocate in2, throw w1", "throw w1", "points w1 are moving already"),
    ("", "settle w1", "points w1 are not moving: they are in position plus"),
    ("", "enter w1", "section w1 is not a border: trains enter at the ends of the network"),
    ("mark in1, allocate in1", "enter pl1",
     "the lock of section pl1 is locked, not free: route in1 has it locked"),
    ("", "head line", "no train has its front in section line"),
    ("enter line", "head line", "board home, at which the train waits, is closed"),
    ("enter line", "tail line", "no train of two or more sections has its rear in line"),
    ("", "leave line", "no train is in section line only"),
    ("enter line", "leave line",
     "the network continues after section line: trains leave at its ends"),
    ("enter pl1, mark out1, allocate out1, lock out1, head pl1, head w1", "head line",
     "the network ends at section line")]

# the same plant: events, and what waits for what
WAITING = [
    ("", []),
    ("enter pl1, mark in1", [
        "The train in pl1, which runs down, waits at start1, which is closed: no route from there "
        "is "
        "requested (out1).",
        "in1 waits for pl1, which a train occupies."]),
    ("mark in1, allocate in1, lock in1, mark in2, enter line", [
        "The train in line, which runs up, can move on.",
        "in1 is locked, with board home open. It waits for a train there.",
        "in2 waits for its conflict in1, which is locked and for w1, which in1 has locked."]),
    ("mark in2, allocate "
     "in2", ["in2 waits for points w1, which are in position plus, to be in position minus."]),
    (SET_IN1 + ", enter line, head line, sense in1", [
        "The train in line and w1, which runs up, can move on.",
        "in1 is used by a train and waits for a train in pl1."])]


def reached(plant, words):
    """Returns the state after some events."""
    run = [read_event(plant, word) for word in words.split(", ") if word]
    place, state = first_refused(plant, None, run)
    if place is not None:
        raise ValueError(f"{words}: event {place} isn't enabled")
    return state


def check_demands(_, is_long):
    """An event has an unmet demand if and only if the event model refuses it."""
    chance, refused = random.Random(53), set()
    for name in ("line", "station-protected", "facing-point-wrong", "four-sections"):
        plant = Plant(json.loads(plants()[name]))
        for _ in range(12 * (MANY if is_long else 1)):
            _, state = a_run(plant, chance)
            for one in (state, muddled(plant, state, chance)):
                for event in all_events(plant):
                    is_enabled = events.apply(plant, one.copy(), event)
                    refused.add((event[0], is_enabled))
                    if is_enabled == bool(unmet(plant, one, event)):
                        yield f"{name}: {event} is {'' if is_enabled else 'not '}enabled; unmet: " \
                              f"{unmet_words(plant, one, event)!r}"
    yield from (f"{word} was never "
                f"{'enabled' if is_enabled else 'refused'}" for word in events.EVENTS
                for is_enabled in (True, False) if (word, is_enabled) not in refused)


def check_demand_words(_, __):
    """The page says why events are not enabled, and what trains and routes wait for."""
    plant = Plant(json.loads((TOP / "examples/platforms.json").read_text()))
    for before, event, wanted in PLATFORMS:
        state = reached(plant, before)
        said = unmet_words(plant, state, read_event(plant, event))
        if said != wanted:
            yield f"{before}: {event}: {said!r}"
    told = {event.split(" ")[0] for _, event, _ in PLATFORMS}
    yield from (f"no demand of {word} is tested" for word in sorted(set(events.EVENTS) - told))
    for before, wanted in WAITING:
        said = waiting(plant, reached(plant, before))
        if said != wanted:
            yield f"{before}: {said}"
    yield from protected_faults()


def protected_faults():
    """Yields the faults in sentences about protecting boards, in station-protected: m2 and m4
    protect r1."""
    plant = Plant(json.loads((TOP / "examples/station-protected.json").read_text()))
    r1 = plant.route_named["r1"]
    other = next(r for r, route in enumerate(plant.routes)
                 if route.source == plant.board_named["m4"])
    name = plant.routes[other].name
    state = State(plant)
    state.mode[r1], state.aspect[plant.board_named["m4"]] = "allocating", "open"
    for x, position in plant.routes[r1].wanted:
        state.at[x] = position
    said = unmet_words(plant, state, ("lock", r1))
    if said != "board m4, which protects route r1, is open":
        yield f"lock r1: {said!r}"
    state = State(plant)
    state.mode[r1], state.mode[other] = "locked", "allocating"
    for x, position in plant.routes[other].wanted:
        state.at[x] = position
    said = unmet_words(plant, state, ("lock", other))
    if said != "route r1 is locked, and m4 is one of its protecting boards":
        yield f"lock {name}: {said!r}"


DisabledEventTests = test_case("DisabledEventTests", [check_demands, check_demand_words])
