"""Compiled checkers: C programs that check the same texts as certificate.py and rup.py, many times
as fast.

They are independent implementations: they share no code with the Python, and only the formulas with
the program. gcc compiles them in a temporary directory. Without gcc, Python checks.
"""

from __future__ import annotations

import os
import re
import shutil
import subprocess
import tempfile
import threading
from pathlib import Path
from typing import Callable

SOURCES = Path(__file__).resolve().parent
WANTS = re.compile(r"wants (hazard|breach|step) ([0-9]+)")

TextOf = Callable[[str, int], bytes]        # returns a query's formula, by kind and number


class CheckerError(Exception):
    """A compiled checker gave no answer. The message has its output."""


def compiled(name: str, directory: Path) -> Path | None:
    """Compiles a checker in a directory. Returns its path, or `None` if gcc is not installed."""
    if shutil.which("gcc") is None:
        return None
    path = directory / name
    subprocess.run(["gcc", "-O2", "-std=c11", "-Wall", "-Wextra", "-o", path, SOURCES / f"{name}.c"], check=True)
    return path


def said(path: Path, *words: object) -> str:
    """Returns a compiled checker's output about some files."""
    done = subprocess.run([str(path), *map(str, words)], stdout=subprocess.PIPE, stderr=subprocess.PIPE)
    if done.returncode != 0 or done.stderr:
        raise CheckerError(f"{path.name} ends with {done.returncode}: {(done.stdout + done.stderr).decode()}")
    return done.stdout.decode()


def put(path: Path, data: bytes) -> None:
    """Writes a file in one step, so other processes never see a part of it."""
    part = path.with_name(f"{path.name}-{os.getpid()}-{threading.get_ident()}")
    part.write_bytes(data)
    os.replace(part, path)


class Formulas:
    """Files with a configuration's query formulas, each written at first need."""

    def __init__(self, directory: Path, text_of: TextOf) -> None:
        self.directory, self.text_of = directory, text_of

    def path_of(self, kind: str, number: int) -> Path:
        """Returns the file of a query's formula."""
        path = self.directory / f"{kind}-{number}"
        if not path.exists():
            put(path, self.text_of(kind, number))
        return path


class CompiledCertificateChecker:
    """Checks certificates like certificate.audited, over the formulas of `text_of`."""

    def __init__(self, path: Path, directory: Path, text_of: TextOf) -> None:
        self.path, self.formulas = path, Formulas(Path(tempfile.mkdtemp(dir=directory)), text_of)

    def audited(self, files: list[Path]) -> list[str]:
        """Returns the expected audit answer for each of these files."""
        while True:
            answers = said(self.path, self.formulas.directory, *files).splitlines()
            queries = {query.groups() for query in map(WANTS.fullmatch, answers) if query}
            if not queries:
                return answers
            for kind, number in queries:
                self.formulas.path_of(kind, int(number))


class CompiledRupChecker:
    """Checks refutations like rup.answer, over the formulas of `text_of`."""

    def __init__(self, path: Path, directory: Path, text_of: TextOf) -> None:
        self.path, self.formulas = path, Formulas(Path(tempfile.mkdtemp(dir=directory)), text_of)

    def answer(self, kind: str, number: int, text: bytes) -> str:
        """Returns the expected answer of `rup` to a text for a query."""
        file = self.formulas.directory / f"text-{os.getpid()}-{threading.get_ident()}"
        file.write_bytes(text)
        answer = said(self.path, self.formulas.path_of(kind, number), file).removesuffix("\n")
        return f"refuted {kind} {number}" if answer == "refuted" else answer
