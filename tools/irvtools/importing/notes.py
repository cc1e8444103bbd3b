"""The notes of an import: one record for each thing read, cut, absorbed or guessed.

The file is a JSON object with `notes` (the version, 1), `source`, `form`, `attribution`, `draft`
and `entries`, one per line. Every entry has `kind`, `name` (of the configuration, or null),
`object` (of the data, or null) and `text`. An entry of kind `board` also has `by`: `data` or
`rule`.
"""

import json
from pathlib import Path
from typing import Dict, List, Optional, Set

KINDS = ("cut", "absorbed", "guessed", "crossing", "left out", "end", "board", "point", "section")

DRAFT = ("This is a draft for an engineer. Maps and layouts have no detection sections: their "
         "borders are set where boards and points are. Check every section, board and point.")


class Notes:
    """The notes of one import."""

    def __init__(self, source: str, form: str, attribution: Optional[str]):
        self.source, self.form, self.attribution = source, form, attribution
        self.entries: List[Dict[str, Optional[str]]] = []

    def add(self, kind: str, thing: Optional[str], text: str, name: Optional[str] = None,
            **more: str) -> None:
        """Adds an entry."""
        assert kind in KINDS, kind
        self.entries.append({"kind": kind, "name": name, "object": thing, "text": text, **more})

    def count(self, kind: str, **more: str) -> int:
        """Returns the number of entries of a kind with these members."""
        return sum(entry["kind"] == kind and all(entry.get(key) == value
                                                 for key, value in more.items())
                   for entry in self.entries)

    def text(self) -> str:
        """Returns the text of the notes file. Entries are ordered by kind."""
        head = {"notes": 1, "source": self.source, "form": self.form,
                "attribution": self.attribution, "draft": DRAFT}
        lines = ",\n".join(f" {json.dumps(key)}: {json.dumps(value, ensure_ascii=False)}"
                           for key, value in head.items())
        ordered = sorted(self.entries, key=lambda entry: KINDS.index(entry["kind"]))
        rows = ",\n".join(f"  {json.dumps(entry, ensure_ascii=False)}" for entry in ordered)
        return f"{{\n{lines},\n \"entries\": [\n{rows}]}}\n"


def read_notes(path: Path) -> dict:
    """Returns the contents of a notes file. Raises `ValueError` for other files."""
    found = json.loads(path.read_text(encoding="utf-8"))
    if not isinstance(found, dict) or found.get("notes") != 1 or \
            not isinstance(found.get("entries"), list):
        raise ValueError(f"{path}: not a file of notes of an import")
    return found


def boards_by_rule(found: dict) -> Set[str]:
    """Returns the names of boards without data. A report draws them hollow."""
    return {entry["name"] for entry in found["entries"]
            if entry.get("kind") == "board" and entry.get("by") == "rule"}
