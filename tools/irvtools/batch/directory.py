"""Reads the directory of configurations. Names may be any bytes, and no link leads outside."""

from __future__ import annotations

import os
import stat
from pathlib import Path

from irvtools.batch.file_names import shown
from irvtools.calls.refusal import Refused, reason

ENDING = ".json"
MOST_BYTES = 4194304            # most bytes of a configuration
MOST_SCENARIO = 8192            # most bytes of a scenario


def is_inside(directory: Path, path: Path) -> bool:
    """Returns whether a path, after following links, is inside a directory or equal to it."""
    return Path(os.path.realpath(path)).is_relative_to(os.path.realpath(directory))


def read_file(directory: Path, name: str, most: int) -> bytes:
    """Returns the bytes of a file of the directory. One byte more than `most` is read of a longer
    file, so the program rejects it."""
    path = Path(directory, name)
    if not is_inside(directory, path):
        raise Refused(f"{shown(name)}: the link leads out of the directory")
    try:
        if not stat.S_ISREG(os.stat(path).st_mode):
            raise Refused(f"{shown(name)}: not a regular file")
        with open(path, "rb") as file:
            return file.read(most + 1)
    except OSError as fault:
        raise Refused(f"{shown(name)}: cannot be read: {reason(fault)}") from fault


def names_in(directory):
    """Returns the relative paths of all configurations, in order."""
    faults, found = [], []

    def unread(fault):
        faults.append(f"{shown(str(fault.filename))}: cannot be read: {reason(fault)}")

    for here, directories, files in os.walk(directory, onerror=unread):
        for name in directories:
            if os.path.islink(os.path.join(here, name)):
                path = os.path.relpath(os.path.join(here, name), directory)
                faults.append(f"{shown(path)}: links to directories are not followed")
        found += [os.path.relpath(os.path.join(here, name), directory) for name in files
                  if name.endswith(ENDING)]
    if faults:
        raise Refused(*sorted(faults))
    return sorted(found, key=os.fsencode)


def read_directory(directory: Path) -> dict[str, bytes]:
    """Returns the bytes of each configuration, by name."""
    if not Path(directory).is_dir():
        raise Refused(f"{shown(str(directory))}: not a directory")
    faults, read = [], {}
    for name in names_in(directory):
        try:
            read[name] = read_file(directory, name, MOST_BYTES)
        except Refused as fault:
            faults += fault.faults
    if faults:
        raise Refused(*faults)
    if not read:
        raise Refused(f"{shown(str(directory))}: no file in it ends with {ENDING}")
    return read
