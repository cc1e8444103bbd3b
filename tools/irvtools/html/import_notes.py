"""Reads the notes of an import: boards that a rule placed."""

from __future__ import annotations

from pathlib import Path

from irvtools.html.options import Refused
from irvtools.importing import notes


def boards_by_rule(name: str) -> set[str]:
    """Returns the boards without imported data, from a notes file. Rejects other files."""
    try:
        return notes.boards_by_rule(notes.read_notes(Path(name)))
    except OSError as fault:
        raise Refused(f"cannot read --import-notes {name}: {fault.strerror}") from fault
    except (ValueError, KeyError, TypeError, AttributeError) as fault:
        raise Refused(f"--import-notes {name} is not a file of notes of an import") from fault
