"""Calls the program. All answers on a page come from here."""

from __future__ import annotations

import itertools
import subprocess
import tempfile
import time
from pathlib import Path

from irvtools.calls.interruption import ended, held, released
from irvtools.model.plant import Plant

REPLAY_SECONDS = 60


class Answer:
    """An answer. `status` is `None` if the call was ended or failed to start; `trouble` says which."""

    def __init__(self, words, status, output, seconds, trouble=""):
        self.words, self.status, self.output = words, status, output
        self.seconds, self.trouble = seconds, trouble

    @property
    def line(self):
        """Returns the first line of the report."""
        return self.output.partition("\n")[0]

    @property
    def said(self):
        """Returns the first line, or the fault instead."""
        return self.line or self.trouble or f"nothing, with status {self.status}"


class Program:
    """The program over one configuration."""

    def __init__(self, file, given):
        self.file, self.given = str(file), given
        self.room = tempfile.TemporaryDirectory(prefix="irv-report-")
        self.replays, self.numbers = 0, itertools.count()

    def ask(self, words, seconds):
        """Calls the program for up to `seconds`."""
        begin = time.monotonic()
        try:
            with held(), self.start(words) as child, ended(child), released():
                output, errors = child.communicate(self.given, timeout=seconds)
        except subprocess.TimeoutExpired:
            return Answer(words, None, "", time.monotonic() - begin,
                          f"no answer within {seconds:g} seconds")
        except OSError as fault:
            return Answer(words, None, "", 0.0, f"not called: {fault}")
        return Answer(words, child.returncode, output.decode(errors="replace"),
                      time.monotonic() - begin, errors.decode(errors="replace").strip())

    def start(self, words):
        """Starts a call, with pipes."""
        return subprocess.Popen([self.file, *words], stdin=subprocess.PIPE, stdout=subprocess.PIPE,
                                stderr=subprocess.PIPE)

    def replay(self, columns, run):
        """Returns the answer of `replay` to a run."""
        file = Path(self.room.name, f"run{next(self.numbers)}")
        file.write_text(run, encoding="ascii")
        self.replays += 1
        answer = self.ask(["replay", "--columns", columns, "--run", str(file)], REPLAY_SECONDS)
        file.unlink()
        return answer


def replay_line(plant: Plant, hazard: tuple[str, int] | None) -> str:
    """Returns replay's line for a hazard of the page's own model, or for none."""
    return "no hazard" if hazard is None else f"hazard {hazard[0]} {plant.name(hazard[1])}"
