"""The program's version: lines like those of `./irv --version`, and whether the program is known to
be proved."""

from __future__ import annotations

import hashlib
import os
import subprocess
from pathlib import Path

from irvtools.calls import provenance
from irvtools.package.source_checksums import sum_of_sources, tree_of

UNPROVED = "irv-unproved"       # name of the unproved build, which also has a note
PROVED = "proved: the launcher built and proved it, as the note beside it says"
UNKNOWN = "not known to be proved: no note of the launcher beside it says so"


def sum_of(file) -> str:
    """Returns the SHA-256 checksum of a file."""
    return hashlib.sha256(Path(file).read_bytes()).hexdigest()


def note_beside(program: Path) -> dict[str, str]:
    """Returns the launcher's note of a program that it proved and built: sources, checksum and
    toolchain. Returns nothing if the program is not known to be proved. For a package's program it
    uses the version file."""
    if provenance.VERSION_FILE in os.environ:
        version = Path(os.environ[provenance.VERSION_FILE]).read_text(encoding="utf-8")
        is_proved = PROVED in version.splitlines()
        said = {name: provenance.filed(name) for name in ("sources", "program", "toolchain")}
        return {**said, "program": said["program"].removeprefix("sha256 ")} if is_proved else {}
    note = program.with_name(program.name + ".built")
    try:
        said = dict(line.split(" ", 1) for line in note.read_text(encoding="utf-8").splitlines())
    except (OSError, ValueError):
        return {}
    is_whole = all(word in said for word in ("sources", "program", "toolchain"))
    return said if is_whole and program.resolve().name != UNPROVED else {}


def version_of(command: str) -> str:
    """Returns a solver's printed version."""
    try:
        said = subprocess.run([command, "--version"], stdin=subprocess.DEVNULL,
                              stdout=subprocess.PIPE, stderr=subprocess.DEVNULL, timeout=10,
                              check=False).stdout
    except (OSError, subprocess.TimeoutExpired):
        said = b""
    line = said.decode(errors="replace").partition("\n")[0].strip()
    return f"{command} {line or 'of an unknown version'}"


def version_lines(program: Path, copy: Path, files: dict, archive: Path) -> list[str]:
    """Returns version, commit, git's tree, toolchain, checksums of sources, program and archive,
    and whether the program is known to be proved. Version and commit are those of this checkout
    with its `files`. So they hold only for a program known to be built from them."""
    note, total = note_beside(program), sum_of(copy)
    is_noted = note.get("program") == total
    is_of_here = is_noted and note["sources"] == sum_of_sources(files)
    version, commit = provenance.version() or "of no version", provenance.commit()
    unknown = "unknown; that of the tools and documents is "
    return [f"irv {version if is_of_here else unknown + version}",
            f"commit {commit if is_of_here else unknown + commit}",
            f"tree {tree_of(files)}",
            f"toolchain {note['toolchain'] if is_noted else 'unknown'}",
            f"sources {note['sources'] if is_noted else 'unknown'}",
            f"program sha256 {total}",
            f"{archive.name} sha256 {sum_of(archive)}",
            PROVED if is_noted else UNKNOWN]
