"""The evidence for each line of docs/assurance/traceability.md.

`requirements.txt` beside this file has that of requirements, commands, exit statuses and tools; the
qualification page has that of assumptions, application conditions and failure modes.
"""

from __future__ import annotations

import re
from dataclasses import dataclass, field
from pathlib import Path

from irvtools.docs.qualification import PAGE as QUALIFICATION
from irvtools.docs.qualification import entries_in

DATA = Path("tools/irvtools/docs/requirements.txt")
KINDS = ("definitions", "contracts and laws", "tests", "mutants")
LINK = re.compile(r"\[([^\]]*)\]\(([^)\s#]+)\)")
RUN = re.compile(r"`tests/(?:run )?(\w+)`")
MUTANT = re.compile(r"`(ilk_\w+/(?:mutants|must-fail)/\w+\.edit)`")
TITLES = {"AS": "Assumptions", "SRAC": "Application conditions", "FM": "Failure modes"}


@dataclass(frozen=True)
class Item:
    """A piece of evidence: kind, file, and any name there."""

    kind: str
    file: str
    name: str = ""

    def shown(self) -> str:
        """Returns the item for a table."""
        if self.file.startswith("tests/run "):
            return self.file[6:]
        if self.kind == "mutants":
            return self.name
        return f"`{self.name}`" if self.name else Path(self.file).name


@dataclass
class Line:
    """A line that needs evidence; `by_user` if the user provides it."""

    section: str
    name: str
    items: list[Item] = field(default_factory=list)
    by_user: bool = False

    def of(self, kind: str) -> list[Item]:
        """Returns the items of a kind."""
        return [item for item in self.items if item.kind == kind]


def test_item(word: str) -> Item:
    """Returns a test's item in `requirements.txt`."""
    if word.startswith("+"):
        return Item("tests", f"tests/run {word[1:]}")
    return Item("tests", word if "/" in word else f"tests/cases/{word}")


def items_of(kind: str, cell: str) -> list[Item]:
    """Returns a cell's items in `requirements.txt`."""
    words = [] if cell == "-" else cell.split()
    if kind == "tests":
        return [
            Item("tests", f"crates/{word}") if word.startswith("ilk_") else test_item(word)
            for word in words
        ]
    if kind == "mutants":
        return [Item(kind, f"crates/{word}.edit", word.rpartition("/")[2]) for word in words]
    return [
        Item(kind, f"crates/{file}", name)
        for file, _, name in (word.partition(":") for word in words)
    ]


def data_lines(text: str) -> list[Line]:
    """Returns the lines of `requirements.txt`."""
    found, section = [], ""
    for row in text.splitlines():
        if row.startswith("## "):
            section = row[3:]
        elif row and not row.startswith("#"):
            name, *cells = (cell.strip() for cell in row.split(" | "))
            items = [item for kind, cell in zip(KINDS, cells) for item in items_of(kind, cell)]
            found.append(Line(section, name, items))
    return found


def linked_items(text: str) -> list[Item]:
    """Returns the items that a qualification paragraph links to or names in code font."""
    items = []
    for label, target in LINK.findall(text):
        file = target.replace("../../", "", 1)
        if file.startswith("crates/") and "/proofs/" not in file and not file.endswith("tests.rt"):
            kind = "definitions" if file.endswith(".antt") else "contracts and laws"
            items += [Item(kind, file, name) for name in re.findall(r"`(\w+)`", label)]
        elif file.startswith(("tests/", "crates/")):
            items.append(Item("tests", file))
    items += [Item("mutants", f"crates/{file}", Path(file).stem) for file in MUTANT.findall(text)]
    return items + [Item("tests", f"tests/run {name}") for name in RUN.findall(text)]


def qualification_lines(text: str) -> list[Line]:
    """Returns assumptions, application conditions and failure modes with evidence."""
    found = []
    for entry in entries_in(text):
        evidence = entry.fields.get("Evidence", "")
        found.append(
            Line(
                TITLES[entry.kind],
                entry.name,
                linked_items(evidence),
                "by the user" in evidence.lower(),
            )
        )
    return found


def lines_of(root: Path) -> list[Line]:
    """Returns every line that needs evidence."""
    return data_lines((root / DATA).read_text(encoding="utf-8")) + qualification_lines(
        (root / QUALIFICATION).read_text(encoding="utf-8")
    )
