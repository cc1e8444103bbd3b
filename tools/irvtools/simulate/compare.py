"""Asks `irv` about a simulated run: a file that the simulator saved, a run text or a scenario.

A saved file has the simulator's statements about the run, and the refused events. For other files
the simulator's model runs here, in a script engine if there is one."""

from __future__ import annotations

import hashlib
import re
import sys
from pathlib import Path

from irvtools.simulate import script_engine
from irvtools.rules import schema_rules
from irvtools.calls.program import Program
from irvtools.model.plant import Plant

PLAYED = re.compile(r"played 1\nconfiguration ([0-9a-f]{64})\ncolumns (strict|free)\nsays ([^\n]+)\n"
                    r"((?:refused [0-9]+ [^\n]+\n)*)(run 1\n.*)", re.S)
AGREE, DIFFER, NO_ANSWER = 0, 1, 125
ASK_SECONDS = 60


class Refused(Exception):
    """The reason why nothing can be asked."""


class Asked:
    """The program over a configuration, with the columns that accept it."""

    def __init__(self, program, given, file):
        self.irv, self.given, self.file = Program(program, given), given, file
        clean = [columns for columns in ("strict", "free")
                 if self.irv.ask(["check", "--columns", columns], ASK_SECONDS).status == 0]
        if not clean:
            raise Refused("the configuration is not a plant; irv check --columns free says why")
        self.columns = clean[0]

    def replay(self, text):
        """Returns the line of replay."""
        return self.irv.replay(self.columns, text).said

    def drive(self, file):
        """Returns the line of drive, and the run that it prints."""
        answer = self.irv.ask(["drive", "--columns", self.columns, "--run", str(file)], ASK_SECONDS)
        return answer.said, answer.output.partition("\n")[2]

    def own(self, expression):
        """Returns the simulator model's value of `expression`; `None` without an engine."""
        file = script_engine.find()
        value, unread = schema_rules.read(self.given)
        if file is None or unread is not None:
            return None
        return script_engine.Engine(file, Plant(value)).ask(expression)


def compared(what, said, own):
    """Prints an answer beside the simulator's; returns whether they agree."""
    if own is None:
        print(f"{what}: {said}; the simulator is not compared, because no script engine is "
              f"installed ("
              f"{', '.join(script_engine.NAMES)})")
        return True
    print(f"{what}: {said}; the simulator says {'the same' if own == said else own}")
    return own == said


def check_played(asked, found):
    """Checks a file that the simulator saved."""
    sum_, _, says, refused, run = found.groups()
    if sum_ != hashlib.sha256(asked.given).hexdigest():
        raise Refused(f"{asked.file} belongs to another configuration, with another SHA-256")
    agree = [compared("irv replay", asked.replay(run), says)]
    head, events = split_run(run)
    for line in refused.splitlines():
        _, place, event = line.split(" ", 2)
        if int(place) > len(events):
            raise Refused(f"the line “{line}” names a place that the run does not have")
        text = "".join(f"{one}\n" for one in [*head, *events[:int(place)], event, "end"])
        agree.append(compared(f"irv replay, with {event} as event "
                              f"{int(place) + 1}", asked.replay(text),
                              f"not a run at {int(place) + 1}"))
    return all(agree)


def split_run(text):
    """Returns a run's lines before its events, and its events."""
    lines = text.splitlines()[:-1]
    at = lines.index("events") + 1 if lines[1:2] == ["state"] and "events" in lines else 2
    return lines[:at], lines[at:]


def check_run(asked, text):
    """Checks a run text."""
    own = asked.own(f"answerToRun(plant, {script_engine.as_text(text)})")
    return compared("irv replay", asked.replay(text), own)


def check_scene(asked, text, file):
    """Checks a scenario."""
    said, run = asked.drive(file)
    own = asked.own(f"answerToScene(plant, {script_engine.as_text(text)})")
    agree = compared("irv drive", said, own and own.partition("\n")[0])
    if own is not None and agree and own.partition("\n")[2] != run:
        print("irv drive prints a different run than the simulator")
        return False
    return agree


def check(file: str, program: str, given: bytes) -> int:
    """Asks `irv` about a file; returns the exit status."""
    try:
        text = Path(file).read_bytes().decode("ascii")
        asked = Asked(program, given, file)
        found = PLAYED.fullmatch(text)
        if found:
            agree = check_played(asked, found)
        elif text.startswith("played "):
            raise Refused(f"{file} is not as the simulator saves it")
        elif text.startswith("drive "):
            agree = check_scene(asked, text, file)
        else:
            agree = check_run(asked, text)
    except UnicodeDecodeError:
        print(f"irv --simulate: {file} is neither a run text nor a scenario: it has bytes that no "
              f"name has",
              file=sys.stderr)
        return NO_ANSWER
    except (OSError, Refused) as fault:
        print(f"irv --simulate: {fault}", file=sys.stderr)
        return NO_ANSWER
    return AGREE if agree else DIFFER
