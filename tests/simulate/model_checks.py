"""Compares the page's model with `irv replay`, `irv drive` and the event model of
irvtools/model/events.py, over random runs."""

import json
import subprocess
import tempfile
from concurrent.futures import ThreadPoolExecutor
from pathlib import Path

from irvtools.generators import configurations
from irvtools.model import events
from tests.support import fifteen_section_line
from irvtools.calls.program import Program
from irvtools.model.plant import Plant
from irvtools.model.state import (
    ROUTE_WORDS, State, event_line, read_event, read_state_line, state_lines,
)
from irvtools.paths import TOP

FAULTS = ("facing-point-wrong", "trailing-point-wrong", "path-skips-point", "path-ends-early",
          "border-without-board", "protection-not-listed")
AT_ONCE = 2


def plants():
    """Returns plants that break no rule N or R, by name, as bytes."""
    found = {path.stem: path.read_bytes() for path in sorted((TOP / "examples").glob("*.json"))}
    found["line"] = json.dumps(fifteen_section_line.right()).encode()
    found.update({name: json.dumps(fifteen_section_line.with_fault(name)).encode() for name in FAULTS})
    found["stations 2"] = configurations.made("stations", "2")
    return found


def all_events(plant):
    """Yields every event that a run text may have."""
    for word in events.EVENTS:
        things = range(len(plant.routes)) if word in ROUTE_WORDS else \
            plant.points if word in ("throw", "settle") else range(len(plant.sections))
        yield from ((word, number) for number in things)


def enabled_lines(plant, state):
    """Returns the lines of all events that the other model enables."""
    if events.hazard(plant, state):
        return []
    return [event_line(plant, event) for event in all_events(plant)
            if events.apply(plant, state.copy(), event)]


def other_model_faults(plant, run):
    """Yields the other model's differences in a run's events, its last state, or what is enabled
    there."""
    state = State(plant)
    for words in run["first"] or []:
        read_state_line(plant, state, words.split(" "))
    for words in run["events"]:
        if events.hazard(plant, state) or not events.apply(plant, state, read_event(plant, words)):
            yield f"the other model refuses {words!r} of {run['text']!r}"
            return
    if state_lines(plant, state) != run["state"]:
        yield f"the other model comes to another state after {run['text']!r}"
    if sorted(enabled_lines(plant, state)) != sorted(run["enabled"]):
        yield f"the other model has other events enabled after {run['text']!r}"


def replay_faults(irv, run):
    """Yields the differences of `irv replay` from the page's model."""
    pairs = [(run["text"], run["says"]), (run["rest"], run["says"])]
    if run["refused"]:
        pairs.append((run["refused"][1], f"not a run at {len(run['events']) + 1}"))
    for text, wanted in pairs:
        said = irv.replay("free", text).said
        if said != wanted:
            yield f"replay says {said!r}, the page {wanted!r}, of {text!r}"


def drive_faults(program, given, drives):
    """Yields the differences of `irv drive` from the page's model."""
    with tempfile.TemporaryDirectory(prefix="irv-play-") as room:
        for number, one in enumerate(drives):
            file = Path(room, f"scene{number}")
            file.write_text(one["scene"], encoding="ascii")
            done = subprocess.run([program, "drive", "--columns", "free", "--run", file], input=given,
                                  capture_output=True, check=False)
            if done.stdout.decode() != one["says"]:
                yield f"drive prints {done.stdout[:90]!r}, the page {one['says'][:90]!r}, of {one['scene']!r}"


class Count:
    """The counts of an extra test suite."""

    def __init__(self):
        self.runs = self.events = self.refused = self.drives = 0
        self.enabled, self.not_enabled, self.hazards, self.rests = set(), set(), set(), set()

    def add(self, runs, drives):
        """Counts runs and drives."""
        self.runs += len(runs)
        self.events += sum(len(run["events"]) for run in runs)
        for run in runs:
            self.enabled |= {words.split(" ")[0] for words in run["events"]}
            self.hazards |= {" ".join(run["says"].split(" ")[:2])}
            if run["refused"]:
                self.refused += 1
                self.not_enabled.add(run["refused"][0].split(" ")[0])
        self.drives += len(drives)
        self.rests |= {one["says"].split(" ")[0] for one in drives}

    def compared(self):
        """Returns how many texts both the page and the program answered: runs, refused events and drives."""
        return self.runs + self.refused + self.drives

    def left_out(self):
        """Yields what should have occurred, but did not."""
        yield from (f"{word} was never done" for word in events.EVENTS if word not in self.enabled)
        yield from (f"{word} was never "
                    f"refused" for word in events.EVENTS if word not in self.not_enabled)
        yield from (f"{rest} never "
                    f"came" for rest in ("driven", "stuck", "hazard") if rest not in self.rests)
        yield from (f"{words} never came" for words in ("hazard two", "hazard wrong", "no hazard")
                    if words not in self.hazards)

    def __str__(self):
        return (f"{self.events} events in {self.runs} runs, {self.refused} refused events, "
                f"{self.drives} drives")


def faults(program, ask, size, count, names=None):
    """Yields the differences of the page's model from the program and the other model, over each
    plant or `names`. `size` has the events and drives of each; `ask` takes a name, the plant and an
    expression."""
    most_events, most_drives = size
    for seed, (name, given) in enumerate(plants().items(), 1):
        if names and name not in names:
            continue
        plant, irv = Plant(json.loads(given)), Program(program, given)
        runs = ask(name, plant, f"randomRuns(plant, {seed}, {most_events}, 110)")
        drives = ask(name, plant, f"randomDrives(plant, {seed}, {most_drives})")
        count.add(runs, drives)
        found = [fault for run in runs for fault in other_model_faults(plant, run)]
        with ThreadPoolExecutor(AT_ONCE) as pool:
            for some in pool.map(lambda run: list(replay_faults(irv, run)), runs):
                found += some
        found += drive_faults(program, given, drives)
        yield from (f"{name}: {fault}" for fault in found[:3])
