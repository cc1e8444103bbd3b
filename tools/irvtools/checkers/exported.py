"""The formulas of a configuration's queries, exported by the program."""

from __future__ import annotations

import subprocess
from pathlib import Path
from typing import Callable

from irvtools.checkers import dimacs


class ExportError(Exception):
    """A formula that the program didn't export. The message has its name and the program's answer."""


def text_of(program: Path | str, conf: bytes, columns: str, kind: str, number: int) -> bytes:
    """Returns the text of a query's formula."""
    words = ["export", "--columns", columns, "--query", kind, "--number", str(number)]
    try:
        done = subprocess.run([str(program), *words], input=conf, stdout=subprocess.PIPE,
                              stderr=subprocess.PIPE)
    except OSError as fault:
        raise ExportError(f"the program doesn't start: {fault}") from fault
    if done.returncode != 0:
        said = (done.stdout + done.stderr).decode(errors="replace").strip()
        raise ExportError(f"export of {kind} {number} ended with {done.returncode}: {said}")
    return done.stdout


def formulas_of(program: Path | str, conf: bytes,
                columns: str) -> Callable[[str, int], tuple[int, list[tuple[int, ...]]]]:
    """Returns a function for the formula of each query of a configuration."""
    return lambda kind, number: dimacs.read(text_of(program, conf, columns, kind, number))
