"""Tests of closed standard streams: of the program without a readable root directory, and of the
tools."""

import os
import subprocess
import tempfile

from irvtools.paths import TOP
from tests.support import closed_streams
from tests.support.harness import ProgramTest


class ClosedStreamTests(ProgramTest):
    """Tests that no file replaces a closed standard stream."""

    def test_unreadable_root(self):
        """Each call with closed streams ends with its status, its report and its certificate."""
        try:
            self.see(closed_streams.faults(self.program), len(closed_streams.CASES))
        except closed_streams.NotTried as why:
            self.skipTest(str(why))


class ToolTests(ProgramTest):
    """The tools with closed standard input."""

    CALLS = (("html", ["o.html"], 125), ("simulate", ["o.html"], 125), ("simulate", ["--compare", "x"], 125),
             ("search", [], 2), ("package", ["o"], 125), ("csv", ["--named"], 125), ("sumo", ["o"], 125),
             ("explain", ["check"], 125))

    def faults(self, tool, words, status, room):
        """Yields the faults of a call without standard input."""
        done = subprocess.run([TOP / "tools" / tool, "--program", self.program, *words], cwd=room, check=False,
                              capture_output=True, preexec_fn=lambda: os.close(0))
        line = done.stderr.decode()
        if done.returncode != status or line.count("\n") != 1 or "standard input cannot be read" not in line:
            yield f"{tool} {words}: {done.returncode} {line[-300:]}"

    def test_tools(self):
        """Each tool prints one line: standard input cannot be read."""
        faults = []
        with tempfile.TemporaryDirectory(prefix="irv-closed-") as room:
            for tool, words, status in self.CALLS:
                faults += self.faults(tool, words, status, room)
            faults += [f"left over: {name}" for name in os.listdir(room)]
        self.see(faults, len(self.CALLS))
