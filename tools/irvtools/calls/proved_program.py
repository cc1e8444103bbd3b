"""Recognises the proved program by the build's note beside it."""

from __future__ import annotations

from pathlib import Path

from irvtools.package.program_version import note_beside, sum_of


def is_proved(program: Path) -> bool:
    """Returns whether a proof note beside the program names its checksum."""
    try:
        return note_beside(program).get("program") == sum_of(program)
    except OSError:
        return False
