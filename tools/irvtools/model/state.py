"""A plant's state, and its text by docs/reference/formats.md.

An event is a pair: its word and the number of a route or section.
"""

from __future__ import annotations

from typing import Iterable

from irvtools.model.plant import Plant

ROUTE_WORDS = ("mark", "allocate", "lock", "sense", "release", "finish", "cancel")


class State:
    """All that changes, in lists by number. `on` counts the trains in each section."""

    __slots__ = ("mode", "seen", "rel", "at", "to", "aspect", "lock", "trains", "on")

    def __init__(self, plant):
        """Begins in the initial state."""
        routes, sections = len(plant.routes), len(plant.sections)
        self.mode = ["free"] * routes
        self.seen = [0] * routes
        self.rel = [0] * routes
        self.at = ["plus"] * sections
        self.to = ["plus"] * sections
        self.aspect = ["closed"] * len(plant.boards)
        self.lock = ["free"] * sections
        self.trains = []        # each with direction and body, from tail to head
        self.on = [0] * sections

    def copy(self):
        other = State.__new__(State)
        for part in State.__slots__:
            setattr(other, part, getattr(self, part)[:])
        other.trains = [(direction, body[:]) for direction, body in self.trains]
        return other

    def add_train(self, direction, body):
        """Adds a train at the end of the list."""
        self.trains.append((direction, body))
        for x in body:
            self.on[x] += 1

    def drop_train(self, number):
        """Removes a train."""
        for x in self.trains.pop(number)[1]:
            self.on[x] -= 1


def event_line(plant: Plant, event: tuple[str, int]) -> str:
    """Returns an event as a line of a run."""
    word, number = event
    things = plant.routes if word in ROUTE_WORDS else plant.sections
    return f"{word} {things[number].name}"


def read_event(plant: Plant, line: str) -> tuple[str, int]:
    """Returns the event of a line."""
    word, name = line.split(" ")
    return word, (plant.route_named if word in ROUTE_WORDS else plant.section_named)[name]


def state_lines(plant: Plant, state: State) -> list[str]:
    """Returns a state's lines."""
    lines = [f"route {route.name} {state.mode[r]} {state.seen[r]} {state.rel[r]}"
             for r, route in enumerate(plant.routes)]
    lines += [f"point {plant.name(x)} {state.at[x]} {state.to[x]}" for x in plant.points]
    lines += [f"board {board.name} {state.aspect[b]}" for b, board in enumerate(plant.boards)]
    lines += [f"section {section.name} {state.lock[x]}" for x, section in enumerate(plant.sections)]
    lines += [f"train {direction} {' '.join(plant.name(x) for x in body)}"
              for direction, body in state.trains]
    return lines


def run_text(plant: Plant, events: Iterable[tuple[str, int]], state: State | None = None) -> str:
    """Returns the text of a run from the start, or from a state."""
    first = ["start"] if state is None else ["state", *state_lines(plant, state), "events"]
    lines = ["run 1", *first, *(event_line(plant, event) for event in events), "end"]
    return "".join(f"{line}\n" for line in lines)


def read_state_line(plant: Plant, state: State, words: list[str]) -> None:
    """Reads a line of a state into it."""
    kind, name, *rest = words
    if kind == "route":
        r = plant.route_named[name]
        state.mode[r], state.seen[r], state.rel[r] = rest[0], int(rest[1]), int(rest[2])
    elif kind == "point":
        x = plant.section_named[name]
        state.at[x], state.to[x] = rest
    elif kind == "board":
        state.aspect[plant.board_named[name]] = rest[0]
    elif kind == "section":
        state.lock[plant.section_named[name]] = rest[0]
    else:
        state.add_train(name, [plant.section_named[x] for x in rest])


def read_run(plant: Plant, text: str) -> tuple[State | None, list[tuple[str, int]]]:
    """Returns a run's first state (`None` for the start) and events. `irv` must have printed or
    read the text."""
    lines = text.split("\n")
    state, place = None, 2
    if lines[1] == "state":
        state, place = State(plant), lines.index("events") + 1
        for line in lines[2:place - 1]:
            read_state_line(plant, state, line.split(" "))
    return state, [read_event(plant, line) for line in lines[place:lines.index("end")]]
