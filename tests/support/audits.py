"""Certificates written by verify, and the program's audits of changed ones."""

from __future__ import annotations

import functools
import os
import subprocess
import threading
from pathlib import Path
from typing import Iterable, Iterator

from irvtools.checkers import compiled, exported
from tests.support import certificate_changes

STATUS_OF = {"accepted": 0, "rejected": 6}
SHOWN_BYTES = 120


class AuditError(Exception):
    """verify wrote no certificate; the message has its answer."""


class Audit:
    """A configuration with its certificate, and a directory for files.

    The compiled checker `judge` gives the expected answers, or else certificate.py."""

    def __init__(self, program, conf: bytes, directory: Path, judge: Path | None = None) -> None:
        self.program, self.conf, self.directory = program, conf, directory
        self.formula_of = functools.lru_cache(None)(exported.formulas_of(program, conf, "strict"))
        self.compiled = judge and compiled.CompiledCertificateChecker(
            judge, directory, lambda kind, number: exported.text_of(program, conf, "strict", kind, number))
        (directory / "plant").write_bytes(conf)
        done = self.call("verify", directory / "certificate")
        if done.returncode != 0:
            raise AuditError(f"verify ended with {done.returncode}: {done.stdout!r} {done.stderr!r}")
        self.certificate = (directory / "certificate").read_bytes()

    def call(self, command: str, path: Path) -> subprocess.CompletedProcess:
        """Calls the program with a certificate's file."""
        return subprocess.run([str(self.program), command, "--cert", str(path)], input=self.conf,
                              stdout=subprocess.PIPE, stderr=subprocess.PIPE)

    def expected(self, text: bytes) -> str:
        """Returns certificate.py's answer to a text."""
        return certificate_changes.answer(self.certificate, text, self.formula_of)

    def file_of(self, text: bytes, number: int = 0) -> Path:
        """Writes a text to this thread's file of this number. Returns its path."""
        path = self.directory / f"changed-{os.getpid()}-{threading.get_ident()}-{number}"
        path.write_bytes(text)
        return path

    def answer(self, text: bytes) -> str:
        """Returns the program's answer to a text."""
        return self.answer_to(self.file_of(text))

    def answer_to(self, path: Path) -> str:
        """Returns the program's line about a file, or what came instead."""
        with open(self.directory / "plant", "rb") as given, open(path.with_name(f"{path.name}-errors"), "w+b") as log:
            done = subprocess.run([str(self.program), "audit", "--cert", str(path)], stdin=given,
                                  stdout=subprocess.PIPE, stderr=log)
            log.seek(0)
            errors = log.read()
        said = done.stdout.decode(errors="replace")
        if errors or done.returncode != STATUS_OF.get(said.partition(" ")[0]) or said[-1:] != "\n":
            return f"status {done.returncode}, {said!r} and {errors!r}"
        return said[:-1]

    def compared(self, texts: Iterable[bytes]) -> Iterator[tuple[str, str]]:
        """Yields for each text the expected answer and the program's."""
        texts = list(texts)
        paths = [self.file_of(text, number) for number, text in enumerate(texts)]
        expected = self.compiled.audited(paths) if self.compiled else map(self.expected, texts)
        return zip(expected, map(self.answer_to, paths))

    def fault(self, text: bytes, expected: str, got: str) -> str:
        """Returns a sentence about a wrong answer and its change."""
        known = certificate_changes.known_lines(self.certificate, text)
        lines = text.split(b"\n")[known:known + 2]
        before = self.certificate.split(b"\n")[known:known + 2]
        shown = [[line[:SHOWN_BYTES] for line in some] for some in (before, lines)]
        return (f"expected {expected}, answered {got}, certificate.py answers {self.expected(text)}; from line "
                f"{known + 1} on {shown[0]!r} became {shown[1]!r}")
