"""A call that runs beside other work and can be ended."""

import subprocess
import time
from pathlib import Path

from irvtools.calls.interruption import kill
from irvtools.calls.program import Answer


class Beside:
    """A running call. Its streams are files, so it never blocks."""

    def __init__(self, program, words):
        self.words, self.begin = words, time.monotonic()
        self.process, self.answer = None, None
        self.files = [Path(program.room.name, f"beside.{name}") for name in ("in", "out", "err")]
        self.files[0].write_bytes(program.given)
        try:
            with open(self.files[0], "rb") as given, open(self.files[1], "wb") as out, \
                    open(self.files[2], "wb") as err:
                self.process = subprocess.Popen([program.file, *words], stdin=given, stdout=out,
                                                stderr=err)
        except OSError as fault:
            self.answer = Answer(words, None, "", 0.0, f"not called: {fault}")

    @property
    def seconds(self):
        """Returns the seconds since it began."""
        return time.monotonic() - self.begin

    def poll(self):
        """Returns the answer, or `None` so far."""
        if self.answer is None and self.process.poll() is not None:
            seconds = self.seconds
            output, errors = (file.read_bytes().decode(errors="replace") for file in self.files[1:])
            self.answer = Answer(self.words, self.process.returncode, output, seconds,
                                 errors.strip())
        return self.answer

    def end(self, why):
        """Ends the call if unanswered; returns its result."""
        if self.poll() is None:
            seconds = self.seconds
            kill(self.process)
            self.answer = Answer(self.words, None, "", seconds, why)
        return self.answer
