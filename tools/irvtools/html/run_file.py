"""A run or scenario file from the caller. Its first line says which it is."""

from __future__ import annotations

from pathlib import Path

from irvtools.model.events import EVENTS
from irvtools.model.plant import Plant
from irvtools.model.state import ROUTE_WORDS, State, read_event, read_state_line, state_lines
from irvtools.html.options import Refused

MOST_BYTES = 1048576    # of a run; the program reads shorter scenarios only
HEADS = {"run 1": "run", "drive 1": "drive"}
POINT_WORDS = ("throw", "settle")
COMMANDS = ("mark", "enter", "cancel")      # in a scenario
LONGEST_WORD = 60       # of a quoted line
MORE = "the line has more than an event and a name"


class Given:
    """The file: its name as given, its bytes, and whether it is a run or a drive."""

    def __init__(self, name):
        self.name = name
        try:
            with open(name, "rb") as file:
                self.data = file.read(MOST_BYTES + 1)
        except OSError as fault:
            raise Refused(f"cannot read --run {name}: {fault.strerror}") from fault
        except ValueError as fault:
            raise Refused(f"cannot read --run {name}: {fault}") from fault
        self.text = self.data.decode(errors="replace")
        self.lines = self.text.split("\n")
        self.kind = HEADS.get(self.lines[0])
        if self.kind is None:
            raise Refused(f"--run {name} is neither a run nor a scenario: its first line is "
                          f"{quoted(self.lines[0])}, not {' or '.join(map(quoted, HEADS))}")
        self.what = "run" if self.kind == "run" else "scenario"

    def ask(self, program, columns, seconds):
        """Returns the answer of `irv replay` or `irv drive`. The call shows the file's name but
        uses a copy, because the name may be a pipe's."""
        copy = Path(program.room.name, "given")
        copy.write_bytes(self.data)
        command = "replay" if self.kind == "run" else "drive"
        answer = program.ask([command, "--columns", columns, "--run", str(copy)], seconds)
        answer.words = [command, "--columns", columns, "--run", self.name]
        return answer

    def first_event(self):
        """Returns the line number, from 0, of a run's first event, or `None` if its first lines are
        wrong."""
        if self.lines[1:2] == ["start"]:
            return 2
        if self.lines[1:2] == ["state"] and "events" in self.lines:
            return self.lines.index("events") + 1
        return None

    def read(self, plant, end=None):
        """Returns a run's first state, `None` for the initial one, and its events, up to its last
        line or to line `end`, from 1. Returns `None` if the first lines are incomplete. The lines
        before the end must be right."""
        begin = self.first_event()
        if begin is None or end is not None and end <= begin:
            return None
        state = None
        if self.lines[1] == "state":
            state = State(plant)
            for line in self.lines[2:begin - 1]:
                read_state_line(plant, state, line.split(" "))
        last = self.lines.index("end") if end is None else end - 1
        return state, [read_event(plant, line) for line in self.lines[begin:last]]


def quoted(line: str) -> str:
    """Returns a line in quotes, cut if long."""
    return f"“{line[:LONGEST_WORD]}{'…' if len(line) > LONGEST_WORD else ''}”"


def bad_line(given: Given, plant: Plant, number: int) -> str:
    """Returns the page's own reason why line `number`, from 1, is wrong."""
    lines = given.lines
    if number > len(lines) or number == len(lines) and not lines[-1]:
        return f"Line {number} is missing: the last line must be “end”."
    line = lines[number - 1]
    here = f"Line {number} is {quoted(line)}"
    if number == len(lines):
        return f"{here}, without a line feed."
    if "end" in lines[:number - 1]:
        return f"{here}, but nothing may follow “end”."
    if given.kind == "run" and number == 2:
        return f"{here}, but must be “start” or “state”."
    begin = 1 if given.kind == "drive" else given.first_event()
    if begin is None or number <= begin:
        return f"{here}; {state_line_expected(given, plant, number)}"
    return f"{here}: {bad_event(plant, line, COMMANDS if given.kind == 'drive' else EVENTS)}."


def state_line_expected(given, plant, number):
    """Returns what a state's line must be."""
    wanted = state_lines(plant, State(plant))
    place = number - 3
    if place < len(wanted):
        kind, name = wanted[place].split(" ")[:2]
        return f"this must be the line of {kind} {name}, for example “{wanted[place]}”."
    return "here come the lines of trains: “train up” or “train down” and the train's sections from rear " \
           "to front, each next to the one before. After them comes “events”."


def bad_event(plant, line, words):
    """Returns what is wrong with an event's or command's line."""
    word, _, name = line.partition(" ")
    if word not in words:
        return f"{quoted(word)} is not one of {', '.join(words)} and “end”"
    if word in ROUTE_WORDS:
        return MORE if name in plant.route_named else f"route {quoted(name)} does not exist"
    if name not in plant.section_named:
        return f"section {quoted(name)} does not exist"
    x = plant.section_named[name]
    if word in POINT_WORDS and not plant.sections[x].is_point:
        return f"section {name} has no points, so {word} does not apply"
    return MORE


def driven(plant: Plant, output: str) -> list[tuple[str, int]]:
    """Returns the events of the run that drive printed after its first line."""
    lines = output.split("\n")
    return [read_event(plant, line) for line in lines[3:lines.index("end")]]
