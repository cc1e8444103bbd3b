"""The toolchain's libraries in the program, with version and licences.

The launcher's licence file beside the program names both. A port's README names the version of its
Rust crate; other libraries have the toolchain's version."""

from __future__ import annotations

import re
from dataclasses import dataclass
from pathlib import Path

LICENCE = re.compile(r"^==== (\w+): (\S+)$", re.M)
WITHOUT = re.compile(
    r"^==== libraries of the toolchain that come without a licence file:(.*)$", re.M)


@dataclass
class Library:
    """A library: name, licence files, and the Rust crate and version that it ports, if its README
    names one."""
    name: str
    port: str
    licences: list[str]


def port_of(directory: Path, name: str) -> str:
    """Returns the Rust crate that a library ports, with version; nothing if its README names none."""
    try:
        said = (directory / "README.md").read_text(encoding="utf-8")
    except OSError:
        return ""
    found = re.search(rf"(?<![\w-])({re.escape(name).replace('_', '[_-]')}(?:_builder)?)`? "
                      r"(\d+\.\d+\.\d+)\b", said)
    return f"{found[1]} {found[2]}" if found else ""


def libraries(licences: str, toolchain: Path) -> list[Library]:
    """Returns the libraries by name, from the licences' text and the toolchain's directory."""
    found = {name: [] for name in sorted(WITHOUT.search(licences)[1].split())} \
        if WITHOUT.search(licences) else {}
    for name, file in LICENCE.findall(licences):
        found.setdefault(name, []).append(file)
    return [Library(name, port_of(toolchain / "rattle" / name, name), found[name])
            for name in sorted(found)]
