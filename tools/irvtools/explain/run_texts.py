"""Explains why `replay` or `drive` rejects a text, and why events are not a run."""

from __future__ import annotations

from irvtools.html.run_file import HEADS, Given, bad_line, quoted
from irvtools.model.descriptions import hazard_words
from irvtools.model.disabled_events import unmet_words
from irvtools.model.events import apply, hazard
from irvtools.model.plant import Plant
from irvtools.model.state import State, event_line

HEAD_OF = {kind: head for head, kind in HEADS.items()}
KIND_OF = {"replay": "run", "drive": "drive"}       # the text that a command reads
USED_BY = {"run": "replay", "drive": "drive"}
NAME_OF = {"run": "run", "drive": "scenario"}


class Text(Given):
    """The text of a run or scenario as the command reads it, whatever its header."""

    def __init__(self, data: bytes, kind: str) -> None:     # pylint: disable=super-init-not-called
        self.data = data
        self.text = data.decode(errors="replace")
        self.lines = self.text.split("\n")
        self.kind = kind


def rejected(command: str, data: bytes, plant: Plant, number: int) -> str:
    """Returns why line `number` of the text for `command` is the first bad one."""
    text = Text(data, KIND_OF[command])
    if number == 1:
        return bad_header(command, text)
    return bad_line(text, plant, number)


def bad_header(command: str, text: Text) -> str:
    """Returns why a text's first line is bad."""
    wanted, first = HEAD_OF[text.kind], text.lines[0]
    if first in HEADS and HEADS[first] != text.kind:
        other = HEADS[first]
        return (f"Line 1 is {quoted(first)}: this is a {NAME_OF[other]}, which {USED_BY[other]} reads; "
                f"{command} reads a {NAME_OF[text.kind]}, and its first line has to be “{wanted}”.")
    if not text.data:
        return f"The file is empty; line 1 has to be “{wanted}”."
    ended = "" if len(text.lines) > 1 else ", and no line feed ends it" if first == wanted else ""
    return f"Line 1 is {quoted(first)}{ended}; it has to be “{wanted}” with a line feed."


def not_a_run(data: bytes, plant: Plant, number: int) -> tuple[int, str] | None:
    """Returns the line of a run's event `number`, and why it is not enabled; `None` if `irv` read
    another text."""
    text = Text(data, "run")
    read = text.read(plant)
    if read is None or not 0 < number <= len(read[1]):
        return None
    first, events = read
    state = State(plant) if first is None else first
    for event in events[:number - 1]:
        apply(plant, state, event)
    event = events[number - 1]
    at = hazard(plant, state)
    why = f"a hazard comes before it and ends the run. {hazard_words(plant, at)}" if at \
        else f"{unmet_words(plant, state, event)}."
    return text.first_event() + number, f"Event {number}, {event_line(plant, event)}, is not enabled: {why}"
