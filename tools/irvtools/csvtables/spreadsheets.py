"""Detects spreadsheet files given in place of CSV files, and says what to do."""

from __future__ import annotations

from pathlib import Path

from irvtools.calls.refusal import Refused

SUFFIXES = (".ods", ".xlsx", ".xls", ".xlsm", ".numbers")
ARCHIVE = b"PK\x03\x04"             # first bytes of .ods and .xlsx
OLD_FORM = b"\xd0\xcf\x11\xe0"      # first bytes of .xls
HOW = ("save the table of sections as sections.csv and that of routes as routes.csv (in the spreadsheet: "
       "Save As, Text CSV, UTF-8, with commas or semicolons), and name their directory")


def refuse_file(path: str, given: bytes) -> None:
    """Rejects the bytes of a file in a spreadsheet's own format."""
    if given.startswith((ARCHIVE, OLD_FORM)):
        raise Refused(f"{path}: this is a spreadsheet's own file, not CSV; {HOW}")


def refuse_directory(path: str) -> None:
    """Rejects a spreadsheet file in place of a directory, and a directory that has such files and
    no CSV files."""
    place = Path(path)
    if place.suffix.lower() in SUFFIXES and not place.is_dir():
        raise Refused(f"{path}: this is a spreadsheet's own file, not a directory with CSV files; {HOW}")
    if place.is_dir() and not any((place / name).exists() for name in ("sections.csv", "routes.csv")):
        files = sorted(one.name for one in place.iterdir() if one.suffix.lower() in SUFFIXES)
        if files:
            raise Refused(f"{path}: {files[0]} is a spreadsheet's own file, not CSV; {HOW}")
