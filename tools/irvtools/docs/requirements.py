"""The requirements of model and formats, and checks against the lines of `requirements.txt`."""

from __future__ import annotations

import re
from dataclasses import dataclass
from pathlib import Path

from irvtools.docs.evidence import Line
from irvtools.docs.links import with_targets

MODEL = Path("docs/reference/model.md")
FORMATS = Path("docs/reference/formats.md")
# the model's requirement tables: the first header and one more
TABLES = (
    ("rule", "place"),
    ("event", "change"),
    ("hazard", "definition"),
    ("family", "definition"),
    ("verdict", "definition"),
    ("query", "asks for"),
)
LIMITS = ("what", "limit", "rule")
SECTIONS = (
    "Network rules",
    "Table rules",
    "Column rules",
    "Generated tables",
    "Events",
    "Hazards",
    "Invariant",
    "Verdicts",
    "Queries",
    "Limits",
)
LINK = re.compile(r"\[([^\]]*)\]\(([^)\s]+)\)")


@dataclass(frozen=True)
class Requirement:
    """A requirement from a table row: name, and definitions as files and names."""

    name: str
    definitions: frozenset[tuple[str, str]] = frozenset()


def tables_in(text: str) -> list[list[list[str]]]:
    """Returns a page's tables as lists of rows, header first."""
    tables: list[list[list[str]]] = [[]]
    for line in text.splitlines():
        if not line.startswith("|"):
            tables.append([])
        elif not line.startswith("|---"):
            tables[-1].append([cell.strip() for cell in re.split(r"(?<!\\)\|", line)[1:-1]])
    return [table for table in tables if table]


def name_of(kind: str, cell: str) -> str:
    """Returns a requirement's name: an event's first word, a verdict without "at k"."""
    name = cell.partition("(")[0].strip().strip("`")
    return name.split()[0] if kind == "event" else name.partition(" at ")[0]


def requirements_of(root: Path) -> list[Requirement]:
    """Returns the model's requirements and the formats' limits, in order."""
    found = []
    model = with_targets((root / MODEL).read_text(encoding="utf-8"))
    for header, *rows in tables_in(model):
        kind = next(
            (first for first, other in TABLES if header[0] == first and other in header), ""
        )
        for cells in rows if kind else []:
            definitions = {
                (target.replace("../../", "", 1), name)
                for label, target in LINK.findall(cells[-1])
                for name in re.findall(r"`(\w+)`", label)
            }
            found.append(Requirement(name_of(kind, cells[0]), frozenset(definitions)))
    for header, *rows in tables_in((root / FORMATS).read_text(encoding="utf-8")):
        found += [Requirement(cells[0]) for cells in rows if tuple(header) == LIMITS]
    return found


def says(path: Path, name: str) -> bool:
    """Returns whether a test file has a requirement's name as a word."""
    word = re.escape(name.removesuffix(" n"))
    text = path.read_text(encoding="utf-8")
    return re.search(rf"(?<![A-Za-z0-9]){word}(?![A-Za-z0-9])", text, re.I) is not None


def silent_tests(root: Path, lines: list[Line]) -> list[str]:
    """Returns the tests of requirements and commands without their line's name."""
    named = [line for line in lines if line.section in (*SECTIONS[:-1], "Commands")]
    return [
        f"{line.section}, {line.name}: {item.file} does not say {line.name}"
        for line in named
        for item in line.of("tests")
        if (root / item.file).is_file() and not says(root / item.file, line.name)
    ]


def requirement_faults(root: Path, lines: list[Line]) -> list[str]:
    """Returns requirements without a line, lines without a requirement, and differing definitions."""
    wanted = requirements_of(root)
    listed = {line.name: line for line in lines if line.section in SECTIONS}
    names = [requirement.name for requirement in wanted]
    found = [f"{name} is a requirement and has no line" for name in names if name not in listed]
    found += [f"{name} is no requirement" for name in listed if name not in names]
    if not found and names != list(listed):
        found.append("the lines of requirements are in another order than the pages")
    for requirement in wanted:
        if requirement.definitions and requirement.name in listed:
            items = listed[requirement.name].of("definitions")
            if requirement.definitions != {(item.file, item.name) for item in items}:
                found.append(f"{requirement.name}: the model has other definitions")
    if len(wanted) <= 60:
        found.append(f"only {len(wanted)} requirements are found")
    return found + silent_tests(root, lines)
