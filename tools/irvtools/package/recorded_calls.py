"""The calls of a package: question, tool and answer. Each runs in the package's directory, with
names below it, so that it can be repeated there."""

from __future__ import annotations

import json
import os
import shlex
import subprocess
import sys
from dataclasses import asdict, dataclass
from pathlib import Path

from irvtools.batch.program_answers import why_no_answer
from irvtools.calls.interruption import ended, held, kill, released

PROGRAM = "program/irv"
CONFIGURATION = "configuration.json"
RECORD = "calls.json"
# Replace the program and the place of written files in a repeated call.
PROGRAM_AGAIN, ROOM_AGAIN = '"$program"', '"$room"'
SECONDS_TO_END = 5      # for an interrupted call, before it is killed


@dataclass
class Call:
    """A call: its answer's name, its arguments, status and output, and the package files that it
    wrote."""
    name: str
    words: list[str]
    status: int
    output: str
    errors: str
    made: tuple[str, ...]
    is_repeated: bool

    @property
    def line(self) -> str:
        """Returns its first line, or what came instead."""
        return self.output.partition("\n")[0] or self.errors.strip() or "nothing"

    @property
    def last(self) -> str:
        """Returns its last line, or its last message if it printed a run."""
        said = self.errors if self.output.startswith("run 1\n") else self.output or self.errors
        return (said.strip() or "nothing").splitlines()[-1]

    @property
    def fault(self) -> str | None:
        """Returns why this is not a valid answer of the program, or `None` if it is one or from
        another tool."""
        if not self.is_of_program:
            return None
        complaint = (self.errors.strip() or "").rpartition("\n")[2]
        return why_no_answer(self.words[1], self.status, self.output.partition("\n")[0], complaint)

    @property
    def told(self) -> str:
        """Returns its first line, or why it is not an answer."""
        return f"no answer: {self.fault}" if self.fault else self.line

    @property
    def is_of_program(self) -> bool:
        """Returns whether the program answered it, and not a Python tool."""
        return self.words[0] == PROGRAM

    @property
    def shown(self) -> str:
        """Returns the call as a reader would write it."""
        return f"{shlex.join(self.words)} < {CONFIGURATION}"

    @property
    def again(self) -> str:
        """Returns the call as in the repeating script."""
        words = [PROGRAM_AGAIN if word == PROGRAM
                 else ROOM_AGAIN * (word in self.made) + "/" * (word in self.made)
                 + shlex.quote(word) for word in self.words]
        return " ".join(words)


class Calls:
    """The calls of a package, with answers in its directory."""

    def __init__(self, room: Path):
        self.room, self.all = room, []
        (room / "answers").mkdir()

    def ask(self, name: str, words: list[str], made=(), is_repeated=True) -> Call:
        """Makes a call and keeps its answer."""
        tell(" ".join(map(os.path.basename, words[:3])))
        status, output, errors = run(words, self.room)
        call = Call(name, list(words), status, output.decode(errors="replace"),
                    errors.decode(errors="replace"), tuple(made), is_repeated)
        (self.room / f"answers/{name}.txt").write_bytes(output)
        if errors:
            (self.room / f"answers/{name}.err").write_bytes(errors)
        self.all.append(call)
        return call

    def program(self, name: str, command: str, columns: str, *words: str, made=()) -> Call:
        """Asks the program."""
        return self.ask(name, [PROGRAM, command, "--columns", columns, *words], made)


def tell(step: str) -> None:
    """Prints the current step on a terminal."""
    if sys.stderr.isatty():
        print(f"irv --package: {step}", file=sys.stderr, flush=True)


def run(words: list[str], room: Path, **more: str) -> tuple[int, bytes, bytes]:
    """Runs a command in a directory, with its configuration as input. Returns status, output and
    errors. If interrupted, it also ends the command."""
    environment = {**os.environ, "PYTHONDONTWRITEBYTECODE": "1", **more}
    with open(room / CONFIGURATION, "rb") as given, held(), subprocess.Popen(
            words, cwd=room, stdin=given, env=environment, stdout=subprocess.PIPE,
            stderr=subprocess.PIPE) as process:
        with ended(process, end_tool), released():
            output, errors = process.communicate()
    return process.returncode, output, errors


def end_tool(process: subprocess.Popen) -> None:
    """Lets a called tool clean up and end, and kills it if that takes too long."""
    process.terminate()
    try:
        process.communicate(timeout=SECONDS_TO_END)
    except subprocess.TimeoutExpired:
        kill(process)


def write_record(room: Path, calls: list[Call], facts: dict) -> None:
    """Writes the record of the calls: what the answers do not say themselves."""
    kept = [{key: value for key, value in asdict(call).items() if key not in ("output", "errors")}
            for call in calls]
    text = json.dumps({**facts, "calls": kept}, indent=1) + "\n"
    (room / RECORD).write_text(text, encoding="ascii")


def read_record(room: Path) -> tuple[dict, list[Call]]:
    """Returns the facts in a package's record, and the calls with answers."""
    facts = json.loads((room / RECORD).read_text(encoding="ascii"))
    calls = [Call(output=text_of(room / f"answers/{it['name']}.txt"),
                  errors=text_of(room / f"answers/{it['name']}.err"),
                  **{**it, "made": tuple(it["made"])}) for it in facts.pop("calls")]
    return facts, calls


def text_of(file: Path) -> str:
    """Returns the text of a file; nothing if it does not exist."""
    return file.read_bytes().decode(errors="replace") if file.is_file() else ""
