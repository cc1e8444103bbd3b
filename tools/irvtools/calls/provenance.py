"""Quotes for an evidence package: checksums, the program's origin, and the assumptions and
application conditions of the qualification page."""

from __future__ import annotations

import hashlib
import os
import re
import subprocess
from dataclasses import dataclass
from pathlib import Path

from irvtools.paths import TOP

QUALIFICATION = TOP / "docs/assurance/qualification.md"
# the environment variable with an evidence package's version file, for its report
VERSION_FILE = "IRV_VERSION_FILE"
ITEM = re.compile(r"^### ((?:AS|SRAC)-[0-9]+): (.+)$", re.M)


@dataclass
class Item:
    """An assumption or application condition: identifier, title, statement, and the named lines
    below it, such as `Duty holder`."""
    name: str
    title: str
    statement: str
    lines: dict[str, str]


def sum_of(data: bytes) -> str:
    """Returns the SHA-256 checksum of bytes."""
    return hashlib.sha256(data).hexdigest()


def sum_of_file(file: str | Path) -> str:
    """Returns a file's SHA-256 checksum and length, or why there is none."""
    try:
        digest, length = hashlib.sha256(), 0
        with open(file, "rb") as data:
            while block := data.read(1 << 20):
                digest.update(block)
                length += len(block)
        return f"{digest.hexdigest()} ({length} bytes)"
    except OSError as fault:
        return f"none: {fault}"


def said_by(command: list[str]) -> str | None:
    """Returns a command's output in the checkout; `None` if it fails or prints nothing."""
    try:
        done = subprocess.run(command, cwd=TOP, capture_output=True, text=True, timeout=30,
                              check=False)
    except (OSError, subprocess.TimeoutExpired):
        return None
    return done.stdout.strip() if done.returncode == 0 and done.stdout.strip() else None


def filed(name: str) -> str | None:
    """Returns an entry of the package's version file; `None` if none is named."""
    if VERSION_FILE not in os.environ:
        return None
    lines = Path(os.environ[VERSION_FILE]).read_text(encoding="utf-8").splitlines()
    return dict(line.split(" ", 1) for line in lines if " " in line).get(name, "unknown")


def sources() -> str:
    """Returns the commit of the sources, and whether they changed since."""
    return filed("commit") or commit()


def commit() -> str:
    """Returns this checkout's commit, and whether files changed since."""
    name = said_by(["git", "rev-parse", "HEAD"])
    if name is None or said_by(["git", "rev-parse", "--show-prefix"]):
        return "no commit: the sources are not a clone of git"
    changed = said_by(["git", "status", "--porcelain", "--untracked-files=no"])
    return f"{name}, and files were changed since" if changed else name


def toolchain() -> str:
    """Returns the toolchain's version."""
    return filed("toolchain") or said_by(["rt", "version"]) or "rt is not on this machine"


def version() -> str | None:
    """Returns the sources' version; `None` if they have no version file."""
    try:
        return (TOP / "VERSION").read_text(encoding="utf-8").strip()
    except OSError:
        return None


def premises() -> list[tuple[str, str]]:
    """Returns the qualification page's assumptions with identifiers; none without the page."""
    return [(it.name, it.statement) for it in items("AS")]


def premises_in(document: str) -> list[tuple[str, str]]:
    """Returns a page's assumptions with identifiers."""
    return [(it.name, it.statement) for it in items_in(document) if it.name.startswith("AS-")]


def items(kind: str, document: Path = QUALIFICATION) -> list[Item]:
    """Returns the qualification page's assumptions (`AS`) or application conditions (`SRAC`) in
    order; none without the page."""
    try:
        text = document.read_text(encoding="utf-8")
    except OSError:
        return []
    return [it for it in items_in(text) if it.name.startswith(f"{kind}-")]


def items_in(document: str) -> list[Item]:
    """Returns a qualification page's assumptions and application conditions. The statement is the
    line `Statement`, or otherwise the first paragraph."""
    found = []
    parts = ITEM.split(document)
    for name, title, rest in zip(parts[1::3], parts[2::3], parts[3::3]):
        body = re.split(r"^#{1,6} ", rest, maxsplit=1, flags=re.M)[0].strip()
        lines = {key: plain(value) for key, value in re.findall(r"^- ([^:\n]+): (.+)$", body, re.M)}
        first = " ".join(body.split("\n\n")[0].split())
        statement = lines.get("Statement") or ("" if first.startswith("- ") else plain(first))
        found.append(Item(name, title.strip(), statement, lines))
    return found


def plain(line: str) -> str:
    """Returns a document's line without links and marks."""
    line = re.sub(r"\[([^\]]*)\]\([^)]*\)", r"\1", line)
    return line.replace("**", "").replace("`", "").strip()
