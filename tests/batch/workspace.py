"""Directories of configurations and results, and calls of tools/batch with them."""

from __future__ import annotations

import csv
import html
import json
import os
import re
import shutil
import subprocess
import sys
import tempfile
from pathlib import Path

from irvtools.paths import TOP
from tests.support.harness import SETTINGS, ProgramTest

TOOL = TOP / "tools/batch"
EXAMPLES = TOP / "examples"
# does what a file beside it says, and otherwise what the real program does
FAKE = """#!/bin/sh
case "$1:$(cat '{wish}')" in
    verify:kill) kill -9 $$ ;;
    verify:wait) : > '{wish}.waits'; while [ "$(cat '{wish}')" = wait ]; do sleep 0.2; done ;;
    verify:lie) echo 'safe k=1'
        for word; do case $word in --cert=*) echo lie > "${{word#--cert=}}" ;; esac; done
        exit 0 ;;
    verify:empty) exit 1 ;;
    verify:orphan) kill -9 $PPID; sleep 60 ;;
    audit:worker) kill -9 "$(cut -d ' ' -f 4 /proc/$PPID/stat)"; sleep 60 ;;
esac
exec '{program}' "$@"
"""


class Room:
    """Directories of configurations and results, with a program."""

    def __init__(self, room, program):
        self.room, self.program, self.true_program = Path(room), program, program
        self.directory, self.out = self.room / "directory", self.room / "out"
        self.directory.mkdir()

    def add(self, example, name=None):
        """Copies an example into the directory."""
        path = Path(os.fsdecode(os.fsencode(self.directory) + b"/" + (name or example.encode())))
        path.parent.mkdir(exist_ok=True)
        shutil.copy(EXAMPLES / example, path)
        return path

    def fake(self, wish):
        """Replaces the program by one that first does something else."""
        self.wish = self.room / "wish"
        self.wish.write_text(wish, encoding="ascii")
        self.program = self.room / "fake"
        self.program.write_text(FAKE.format(wish=self.wish, program=self.true_program),
                                encoding="ascii")
        self.program.chmod(0o755)

    def words(self, *words):
        """Returns the arguments of a call."""
        return [
            str(TOOL),
            str(self.directory),
            str(self.out), "--program",
            str(self.program), "--cores", "2", *words
        ]

    def call(self, *words, **others):
        """Asks about the directory. Returns the call."""
        return run(self.words(*words), **others)

    def verify(self):
        """Checks the results with the real program. Returns the status and the lines."""
        done = run(
            [str(TOOL), "--verify-report",
             str(self.out), "--program",
             str(self.true_program)])
        return done.returncode, done.stdout.splitlines()

    def report(self):
        """Returns the report's value."""
        return json.loads((self.out / "report.json").read_bytes())

    def table(self):
        """Returns the lines of report.csv by column names."""
        with open(self.out / "report.csv", encoding="utf-8", newline="") as file:
            return list(csv.DictReader(file))

    def answers(self):
        """Returns each answer's outcome and line, by configuration and first word of the question."""
        return {(row["configuration"], row["question"].split()[0]): (row["outcome"], row["answer"])
                for row in self.table()}

    def index_rows(self):
        """Returns the rows of the index in order: the verdict's word, its cell's text and the name."""
        page = (self.out / "index.html").read_text(encoding="utf-8")
        body = page.partition('<table class="index">')[2].partition("<tbody>")[2].partition(
            "</tbody>")[0]
        rows = re.findall(
            r'<tr class="\w+" data-word="([^"]*)"><td class="said" data-key="\d+">(.*?)</td>'
            r'<td class="name">(.*?)</td>', body, re.S)
        return [(word, plain(cell), plain(name)) for word, cell, name in rows]

    def file(self, kind, role, line=None):
        """Returns a file of an answer, or of the one with `line` if given."""
        for path in sorted((self.out / "results" / kind).glob("*/answer.json")):
            answer = json.loads(path.read_bytes())
            if role in answer["files"] and line in (None, answer["line"]):
                return path.parent / answer["files"][role]["name"]
        raise LookupError(f"no {role} of {kind}")


def plain(markup):
    """Returns markup as a reader sees it."""
    return " ".join(html.unescape(re.sub("<[^>]*>", " ", markup)).split())


def run(words, **others):
    """Calls a command."""
    return subprocess.run(words, stdin=subprocess.DEVNULL, stdout=subprocess.PIPE,
                          stderr=subprocess.PIPE, text=True, check=False, **others)


def without_progress(said):
    """Returns the messages without the progress lines, whose number depends on the machine."""
    return "".join(line for line in said.splitlines(keepends=True)
                   if not re.fullmatch(r"irv --batch: \d+ of \d+ jobs\n", line))


def differs(what, found, expected):
    """Yields a fault if `found` differs from `expected`."""
    if found != expected:
        yield f"{what}: {found!r} instead of {expected!r}"


def done_line(configurations, verdicts, good, jobs, room):
    """Returns the last line of a call. `jobs` counts the done and the known jobs."""
    return (f"{configurations} configurations ({verdicts}), {good} good; {jobs[0]} jobs were done, "
            f"{jobs[1]} were known; {room.out / 'index.html'}\n")


WITHOUT_SNAKEMAKE = ("check_missing",)      # tests that need no Snakemake


def batch_case(name, functions):
    """Returns a test case class with a method per function, which takes a room and yields faults."""
    def method(function):
        def test(self):
            if not shutil.which("snakemake") and function.__name__ not in WITHOUT_SNAKEMAKE:
                self.skipTest("Snakemake is not installed (Debian's package snakemake)")
            with tempfile.TemporaryDirectory(prefix="irv-batch-test-") as room:
                self.see(function(Room(room, SETTINGS.program)))
        test.__doc__ = function.__doc__
        return test

    methods = {"test_" + each.__name__.removeprefix("check_"): method(each) for each in functions}
    return type(name, (ProgramTest,),
                {**methods, "__module__": sys._getframe(1).f_globals["__name__"]})
