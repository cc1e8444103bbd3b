"""Calls of tools/package and tools/verify_package, and changes to packages."""

import fcntl
import hashlib
import html
import json
import os
import re
import shutil
import subprocess
import tempfile
from contextlib import contextmanager
from pathlib import Path

from irvtools.paths import TOP

INDEX = "index.html"


def call(program, directory, given, *words):
    """Returns the answer of tools/package with the tested program."""
    return subprocess.run([TOP / "tools/package", directory, *words, "--program", program], input=given,
                          capture_output=True, check=False)


@contextmanager
def place():
    """Yields a path that does not exist, in a temporary directory."""
    with tempfile.TemporaryDirectory(prefix="irv-test-package-") as room:
        yield Path(room) / "filed"


@contextmanager
def made(program, given, *words):
    """Yields a package in a temporary directory, and the first output line without the directory."""
    with place() as directory:
        done = call(program, directory, given, *words)
        said = done.stdout.decode().partition("\n")[0].removeprefix(f"{directory}: ")
        yield directory, said if done.returncode == 0 else f"{done.returncode} {done.stderr.decode()}"


@contextmanager
def copied(program, given, *words):
    """Yields a copy of a package that the first test that asks for it makes for all, and the first output line."""
    key = hashlib.sha256(b"\0".join([given, *(os.fsencode(word) for word in words)])).hexdigest()
    kept = program.parent / "packages" / key        # beside the program, in the directory of this run of the tests
    kept.mkdir(parents=True, exist_ok=True)
    with open(kept / "turn", "w") as turn:
        fcntl.flock(turn, fcntl.LOCK_EX)
        if not (kept / "said").exists():
            with made(program, given, *words) as (directory, said):
                shutil.copytree(directory, kept / "filed", symlinks=True)
            (kept / "said").write_text(said)
    with place() as directory:
        shutil.copytree(kept / "filed", directory, symlinks=True)
        yield directory, (kept / "said").read_text()


def repeat(directory, *words):
    """Returns the lines of its script, and the status."""
    done = subprocess.run([directory / "repeat.sh", *words], capture_output=True, check=False, cwd="/")
    return done.stdout.decode().splitlines() + done.stderr.decode().splitlines(), done.returncode


def differing(directory, *words):
    """Returns the differences that its script finds."""
    lines, _ = repeat(directory, *words)
    return [line.removeprefix("differs: ") for line in lines if line.startswith("differs: ")]


def judged(directory, *words, judge=(TOP / "tools/verify_package",)):
    """Returns the judge's failures, the other lines, and the status."""
    done = subprocess.run([*judge, directory, *words], capture_output=True, check=False, cwd="/",
                          env={**os.environ, "PYTHONDONTWRITEBYTECODE": "1"})
    lines = done.stdout.decode().splitlines() + done.stderr.decode().splitlines()
    failures = [line.removeprefix("failed: ") for line in lines if line.startswith("failed: ")]
    return failures, [line for line in lines if not line.startswith("failed: ")], done.returncode


def example(name):
    """Returns an example, as bytes."""
    return (TOP / "examples" / name).read_bytes()


def changed(given, change):
    """Returns a configuration after a change of its value."""
    value = json.loads(given)
    change(value)
    return json.dumps(value).encode()


def flip(file):
    """Changes a file's last digit or letter, or a binary file's middle byte."""
    data = bytearray(file.read_bytes())
    place = max((place for place, byte in enumerate(data) if chr(byte).isalnum()), default=0) \
        if file.suffix else len(data) // 2
    data[place] ^= 1
    file.write_bytes(data)


def renew_sums(directory):
    """Renews the checksums, as someone would to hide a change."""
    names = sorted(path.relative_to(directory).as_posix() for path in directory.rglob("*")
                   if path.is_file() and path.name != "SHA256SUMS")
    (directory / "SHA256SUMS").write_text("".join(
        f"{hashlib.sha256((directory / name).read_bytes()).hexdigest()}  {name}\n" for name in names))


def text_of_page(directory):
    """Returns the page's text without markup."""
    page = (directory / INDEX).read_text(encoding="utf-8")
    return html.unescape(re.sub(r"<[^>]+>", " ", page.partition("</style>")[2]))
