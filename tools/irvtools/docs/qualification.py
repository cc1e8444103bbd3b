"""The assumptions, application conditions and failure modes of docs/assurance/qualification.md."""

from __future__ import annotations

import re
from dataclasses import dataclass, field
from pathlib import Path

from irvtools.docs.links import with_targets
from irvtools.paths import TOP

PAGE = Path("docs/assurance/qualification.md")
HEADING = re.compile(r"### ((AS|SRAC|FM)-\d\d): (.*)")
NAME = re.compile(r"\b(?:AS|SRAC|FM)-\d\d\b")
FIELDS = (
    "Statement",
    "Ensured by",
    "Duty holder",
    "Discharged by",
    "Cause",
    "Effect",
    "Detection",
    "Evidence",
    "Residual risk",
)
FIELD = re.compile(rf"- ({'|'.join(FIELDS)}): (.*)")
# the fields of each kind
WANTED = {
    "AS": ("Statement", "Ensured by", "Evidence"),
    "SRAC": ("Duty holder", "Discharged by", "Evidence"),
    "FM": ("Cause", "Effect", "Detection", "Evidence", "Residual risk"),
}


@dataclass
class Entry:
    """An entry: kind (AS, SRAC or FM), name, topic, sentence and fields."""

    kind: str
    name: str
    topic: str
    sentence: str = ""
    fields: dict[str, str] = field(default_factory=dict)


def entries_in(text: str) -> list[Entry]:
    """Returns a page's entries. An assumption's sentence is its statement; an application
    condition's is its first paragraph."""
    found: list[Entry] = []
    inside = False
    for row in with_targets(text).splitlines():
        heading, part = HEADING.match(row), FIELD.match(row)
        if row.startswith("#"):
            inside = heading is not None
        if heading:
            found.append(Entry(heading[2], heading[1], heading[3]))
        elif inside and part:
            found[-1].fields.setdefault(part[1], part[2])
        elif inside and row and not found[-1].fields and not found[-1].sentence:
            found[-1].sentence = row
    for entry in found:
        entry.sentence = entry.sentence or entry.fields.get("Statement", "")
    return found


def entries(kind: str, root: Path = TOP) -> list[Entry]:
    """Returns a kind's entries; none if the page is unreadable."""
    try:
        text = (root / PAGE).read_text(encoding="utf-8")
    except OSError:
        return []
    return [entry for entry in entries_in(text) if entry.kind == kind]


def faults_in(text: str) -> list[str]:
    """Returns the qualification page's faults: missing fields, wrong numbers, conditions without
    "shall", and cited names that do not exist."""
    listed, found, counts = entries_in(text), [], dict.fromkeys(WANTED, 0)
    for entry in listed:
        counts[entry.kind] += 1
        if entry.name != f"{entry.kind}-{counts[entry.kind]:02}":
            found.append(f"{PAGE.name}: {entry.name} is out of order")
        found += [
            f"{PAGE.name}, {entry.name}: no {name.lower()}"
            for name in WANTED[entry.kind]
            if not entry.fields.get(name)
        ]
        if entry.kind == "SRAC" and " shall " not in entry.sentence:
            found.append(f"{PAGE.name}, {entry.name}: no sentence with shall")
    known = {entry.name for entry in listed}
    return found + [
        f"{PAGE.name} cites {name}, which does not exist"
        for name in dict.fromkeys(NAME.findall(text))
        if name not in known
    ]
