"""`irv --csv --fill`: fills derived columns, prints the additions, and runs `irv check` on the
result."""

from __future__ import annotations

import argparse
import os
import sys
from pathlib import Path

from irvtools.calls.program import Program
from irvtools.calls.refusal import Refused
from irvtools.csvtables import columns, comparing, configurations, filling, writing

SECONDS = 60
NOTHING = "nothing is filled: the rules F, N, R, C1 and C2 have to hold, and irv check answers"


class NotFilled(Exception):
    """A configuration that can't be filled. `lines` is the output of `check`."""

    def __init__(self, lines: list[str]) -> None:
        super().__init__(NOTHING)
        self.lines = lines


def read_columns(word: str) -> list[str]:
    """Returns the columns in the value of `--fill`."""
    names = word.split(",")
    if not set(names) <= set(filling.COLUMNS) or len(set(names)) < len(names):
        raise argparse.ArgumentTypeError(
            f"{word!r} is not {' or '.join([*filling.COLUMNS, ','.join(filling.COLUMNS)])}")
    return names


def checked(program: Path, value: dict) -> list[str]:
    """Returns the lines of `irv check` about a configuration."""
    text = configurations.written(value)
    answer = Program(program, text.encode()).ask(["check"], SECONDS)
    if answer.status not in (0, 5):
        raise Refused(f"irv check gives no answer: {answer.said}")
    return answer.output.splitlines()


def filled(program: Path, value: dict, names: list[str], is_exact: bool) -> filling.Filling:
    """Returns a configuration with these columns filled."""
    lines = checked(program, value)
    if filling.hindrances(lines):
        raise NotFilled(lines)
    return filling.filled(value, names, is_exact)


def report(program: Path, old: dict, found: filling.Filling) -> str:
    """Returns the filled and unfilled entries, and what `irv check` says of the result."""
    counts = ", ".join(f"{name} {count}" for name, count in found.counts.items())
    lines = [*comparing.Comparison(old, found.value).lines(), f"filled: {counts}",
             *(f"decide: {line}" for line in found.decisions),
             *(f"wrong: {line}" for line in found.wrong),
             *(f"extra: {line}" for line in found.extra),
             *(f"irv check: {line}" for line in checked(program, found.value))]
    return "".join(f"{line}\n" for line in lines)


def write_over(value: dict, path: str) -> None:
    """Overwrites the configuration at `path`: routes.csv of a directory, or a file."""
    if Path(path).is_dir():
        writing.write_over(Path(path, columns.ROUTES), writing.csv_texts(value)[columns.ROUTES])
    elif os.path.isfile(path):
        writing.write_over(Path(path), configurations.written(value))
    else:
        raise Refused(f"{path}: it is not a file that can be written over")


def fill(options: argparse.Namespace, value: dict, source: str | None) -> str:
    """Fills `value`, which was read from `source`, and writes it. Returns the text for standard
    output."""
    found = filled(options.program, value, options.fill, options.exact)
    text = report(options.program, value, found)
    if options.write:
        write_over(found.value, source)
    elif options.out is not None:
        writing.write_directory(found.value, options.out)
    else:
        sys.stderr.write(text)
        return configurations.written(found.value)
    return text
