"""Writes a configuration as two CSV files."""

from __future__ import annotations

import os
import shutil
from pathlib import Path
from typing import Any

from irvtools.csvtables import cells
from irvtools.csvtables import columns
from irvtools.csvtables import csv_text
from irvtools.calls.refusal import Refused, reason


def csv_rows(known, entries, extra=(), labels=()):
    """Returns the rows of a CSV file: headings, and a row for each entry. A missing member is an
    empty cell. The columns `extra` follow. Only `labels` among them are protected from
    spreadsheets."""
    yield [one.heading for one in known] + list(extra)
    for entry in entries:
        texts = entry.get(columns.EXTRA, {})
        row = [one.write(entry[one.member]) if one.member in entry else "" for one in known]
        yield row + [cells.kept(texts.get(heading, "")) if heading in labels else texts.get(heading, "")
                     for heading in extra]


def csv_texts(value: dict[str, Any]) -> dict[str, str]:
    """Returns the text of each CSV file of a configuration, by file name."""
    extra = value.get(columns.EXTRA, {})
    known = {columns.SECTIONS: ("sections", columns.OF_SECTIONS),
             columns.ROUTES: ("routes", columns.of_routes(value["version"]))}
    return {file: csv_text.written(csv_rows(of_file, value[list_], extra.get(list_, ()),
                                           columns.LABELS[file]))
            for file, (list_, of_file) in known.items()}


def write_directory(value: dict[str, Any], directory: str | Path) -> None:
    """Writes both CSV files into a directory, and makes that if necessary. No file is overwritten,
    and none left if one can't be written."""
    texts, directory, made = csv_texts(value), Path(directory), []
    there = [directory / name for name in texts if os.path.lexists(directory / name)]
    if there:
        raise Refused(*map(is_there, there))
    try:
        if not directory.is_dir():
            make_directory(directory)
            made.append(directory)
        for name, text in texts.items():
            write_new(directory / name, text)
            made.append(directory / name)
    except Refused:
        for path in reversed(made):
            path.rmdir() if path == directory else path.unlink()
        raise


def make_directory(directory):
    """Makes a directory."""
    try:
        directory.mkdir()
    except OSError as fault:
        raise Refused(f"{directory}: it can't be made: {reason(fault)}") from None


def write_new(path: str | Path, text: str) -> None:
    """Writes a new file. None is left if it can't be written completely."""
    try:
        file = open(path, "x", encoding="utf-8", newline="")
    except FileExistsError:
        raise Refused(is_there(path)) from None
    except OSError as fault:
        raise Refused(cannot(path, fault)) from None
    try:
        with file:
            file.write(text)
    except OSError as fault:
        Path(path).unlink()
        raise Refused(cannot(path, fault)) from None


def write_over(path: Path, text: str) -> None:
    """Overwrites a file. The old one is kept if the new one can't be written completely."""
    new = Path(f"{path}.new")
    write_new(new, text)
    try:
        shutil.copymode(path, new)
        os.replace(new, path)
    except OSError as fault:
        new.unlink()
        raise Refused(cannot(path, fault)) from None


def is_there(path: str | Path) -> str:
    """Returns that a file exists."""
    return f"{path}: it is there already, and isn't written over"


def cannot(path, fault):
    """Returns that a file can't be written."""
    return f"{path}: it can't be written: {reason(fault)}"
