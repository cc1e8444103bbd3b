"""Calls of the program with closed standard streams and no directory to open.

A file takes the lowest free descriptor, so a certificate could replace a closed stream and receive
the report. The program occupies closed streams with a directory. Here it cannot: nobody may read
the root directory.
"""

import ctypes
import os
import re
import shutil
import subprocess
import tempfile
from dataclasses import dataclass
from pathlib import Path
from typing import Iterator, List, Optional, Sequence

from irvtools.paths import TOP

PLANT = TOP / "examples" / "line-with-boards.json"
TIMEOUT_SECONDS = 60
NOBODY = 65534
CLONE_NEWUSER = 0x10000000
CERTIFICATE = Path("w") / "c"


class NotTried(Exception):
    """The caller cannot change the root directory, as root or in a namespace."""


@dataclass(frozen=True)
class Case:
    """A call in the jail: arguments, closed streams, working directory and expected result. The
    certificate is that of a call with open streams, or missing."""

    name: str
    words: str
    closed: Sequence[int]
    at: str
    status: int
    report: bytes
    complaint: bytes
    has_certificate: bool


VERIFY = "verify --cert /w/c"
WRITE_FAULT = b"irv: write fault\n"
CASES = (
    Case("all streams open", VERIFY, (), "/", 0, b"safe k=1\n", b"", True),
    Case("output closed", VERIFY, (1,), "/", 9, b"", WRITE_FAULT, False),
    Case("error closed", VERIFY, (2,), "/", 9, b"", b"", False),
    Case("output and error closed", VERIFY, (1, 2), "/", 9, b"", b"", False),
    Case("input closed", VERIFY, (0,), "/", 8, b"", b"irv: read fault\n", False),
    Case("input and output closed", VERIFY, (0, 1), "/", 8, b"", b"irv: read fault\n", False),
    Case("output closed, held by /w", VERIFY, (1,), "/w", 9, b"", WRITE_FAULT, True),
    Case("output closed, no certificate to write", "check", (1,), "/", 9, b"", WRITE_FAULT, False),
    Case("error closed, no certificate to write", "check", (2,), "/", 0, b"clean\n", b"", False),
    Case("wrong arguments, output closed", "verify", (1,), "/", 7, b"", b"irv: usage\n", False),
)


def libraries_of(program: Path) -> List[Path]:
    """Returns a program's shared libraries and its loader."""
    told = subprocess.run(["ldd", str(program)], stdout=subprocess.PIPE,
                          stderr=subprocess.DEVNULL, check=False).stdout.decode()
    return [Path(it) for it in re.findall(r"(/\S+) \(0x", told)]


def make_jail(jail: Path, program: Path) -> None:
    """Makes a searchable but unreadable root directory with the program, its libraries and an empty
    directory `w`."""
    for file in libraries_of(program):
        at = jail / file.relative_to("/")
        at.parent.mkdir(parents=True, exist_ok=True)
        shutil.copy(file, at)
    shutil.copy(program, jail / "irv")
    (jail / "irv").chmod(0o755)
    (jail / "w").mkdir()
    (jail / "w").chmod(0o777)
    jail.chmod(0o711 if os.geteuid() == 0 else 0o311)


def enter(jail: Path, at: str, closed: Sequence[int]) -> None:
    """Makes the jail this process's root directory, as a user who may not read it, and closes the
    streams. Users other than root do this in a user namespace."""
    if os.geteuid() == 0:
        os.chroot(jail)
        os.chdir(at)
        os.setgroups([])
        os.setgid(NOBODY)
        os.setuid(NOBODY)
    else:
        if ctypes.CDLL(None, use_errno=True).unshare(CLONE_NEWUSER):
            raise OSError(ctypes.get_errno(), "no user namespace")
        os.chroot(jail)
        os.chdir(at)
    for stream in closed:
        os.close(stream)


def call(jail: Path, case: Case) -> subprocess.CompletedProcess:
    """Returns the result of a case's call in the jail, which reads the plant."""
    with open(PLANT, "rb") as plant:
        try:
            return subprocess.run(
                ["/irv", *case.words.split()], stdin=plant, stdout=subprocess.PIPE,
                stderr=subprocess.PIPE, timeout=TIMEOUT_SECONDS, check=False, env={},
                preexec_fn=lambda: enter(jail, case.at, case.closed))
        except subprocess.SubprocessError as fault:
            raise NotTried(f"no call in another root directory: {fault}") from fault


def faults_of(case: Case, done: subprocess.CompletedProcess, written: Optional[bytes],
              certificate: bytes) -> Iterator[str]:
    """Yields the faults of a finished call. `written` is its certificate file's content, or `None`."""
    pairs = (
        ("status", done.returncode, case.status),
        ("report", done.stdout, case.report),
        ("standard error", done.stderr, case.complaint),
        ("certificate", written, certificate if case.has_certificate else None),
    )
    for what, came, wanted in pairs:
        if came != wanted:
            yield f"{case.name}: {what} is {came!r:.300}, not {wanted!r:.300}"


def faults(program: Path) -> Iterator[str]:
    """Yields the faults of the built program's calls. Raises `NotTried` if no call is possible
    here."""
    certificate = b""
    for case in CASES:
        with tempfile.TemporaryDirectory() as folder:
            jail = Path(folder) / "root"
            jail.mkdir()
            make_jail(jail, Path(program).resolve())
            try:
                done = call(jail, case)
                file = jail / CERTIFICATE
                written = file.read_bytes() if file.exists() else None
            finally:
                jail.chmod(0o755)
        if case is CASES[0]:
            certificate = written or b""
            if not re.fullmatch(rb"irv certificate .*\nend\n", certificate, re.DOTALL):
                yield f"{case.name}: the certificate isn't one: {certificate[-60:]!r}"
        yield from faults_of(case, done, written, certificate)
