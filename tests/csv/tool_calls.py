"""Calls of the tool in this process, and differences in their output."""

import io
import json
import os
import sys
import tempfile
from pathlib import Path

from irvtools.csvtables import cli
from tests.support import markup_check
from tests.csv import refusal_cases


class Done:
    """A call's output and status."""

    def __init__(self, returncode, stdout, stderr):
        self.returncode, self.stdout, self.stderr = returncode, stdout, stderr


def call(program, words, given=b"", where="."):
    """Calls the tool as its script does."""
    streams = [io.TextIOWrapper(io.BytesIO(one), encoding="utf-8") for one in (given, b"", b"")]
    before = sys.stdin, sys.stdout, sys.stderr, os.getcwd()
    sys.stdin, sys.stdout, sys.stderr = streams
    os.chdir(where)
    try:
        # a program in the arguments comes first
        own = [] if "--program" in words else ["--program", str(program)]
        status = status_of([*map(str, words), *own])
        sys.stderr.flush()
    finally:
        sys.stdin, sys.stdout, sys.stderr = before[:3]
        os.chdir(before[3])
    return Done(status, *(stream.buffer.getvalue() for stream in streams[1:]))


def status_of(words):
    """Calls the tool. Returns its exit status, also if its parser ends it."""
    try:
        return cli.main(words)
    except SystemExit as end:
        return end.code


def lay_out(room, files):
    """Writes a case's files."""
    usual = {"conf": refusal_cases.CONF, refusal_cases.S: refusal_cases.SECTIONS, refusal_cases.R: refusal_cases.ROUTES}
    Path(room, "two").mkdir()
    for name, text in {**usual, **files}.items():
        if text is not None:
            Path(room, name).write_bytes(text.encode() if isinstance(text, str) else text)


def contents(room):
    """Returns all files of a directory with their bytes."""
    return {path.relative_to(room): path.read_bytes() if path.is_file() else None
            for path in sorted(Path(room).rglob("*"))}


def refusal_faults(program, words, files, given, told):
    """Yields the differences of one refusal."""
    with tempfile.TemporaryDirectory(prefix="irv-sheet-") as room:
        lay_out(room, files)
        before = contents(room)
        done = call(program, words, given.encode(), room)
        after = contents(room)
    wanted = "".join(f"irv --csv: {line}\n" for line in told)
    if (done.stdout, done.stderr.decode(), done.returncode) != (b"", wanted, 125):
        yield f"{words} {list(files)}: {done.stderr.decode()!r}, {wanted!r} is wanted; {done.stdout[:90]!r}"
    if before != after:
        yield f"{words} {list(files)}: files were changed"


def compare_faults(program, old, new, wanted):
    """Yields the wrong reports about one pair."""
    with tempfile.TemporaryDirectory(prefix="irv-sheet-") as room:
        for name, value in (("old", old), ("new", new)):
            Path(room, name).write_text(json.dumps(value), encoding="utf-8")
        words = ["--with-network", "new"] if old is None else ["old", "new"]
        done = call(program, ["--compare", *words, "--html", "page"], b"", room)
        if done.stdout.decode().splitlines() != wanted or done.stderr:
            yield f"{done.stdout.decode()}{done.stderr.decode()}"
        if done.returncode != (0 if wanted[0].startswith("the same") else 1):
            yield f"status {done.returncode}"
        page = Path(room, "page").read_text(encoding="utf-8")
    yield from markup_check.faults(page)
    for line in wanted:
        if f"<li>{line}</li>" not in page.replace("&#x27;", "'"):
            yield f"not on the page: {line}"
