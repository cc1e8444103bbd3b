"""Explains what a command refuses or rejects, with the place."""

from __future__ import annotations

import re
import subprocess
from pathlib import Path

from irvtools.csvtables.filling import hindrances
from irvtools.explain import proof_texts, run_texts
from irvtools.explain.sources import CsvSource, JsonSource
from irvtools.model.plant import Plant
from irvtools.rules import explain

FILE_OPTIONS = {"replay": "--run", "drive": "--run", "audit": "--cert", "rup": "--cert"}
REJECTED = re.compile(r"(?:rejected (?:line|item)|not a run at) ([1-9][0-9]*)")
MOST_BYTES = 1 << 28            # the longest file that is read
HEADER_SECONDS = 60
FILLED = ("refused C5", "refused C6", "refused C8")
FILL = "to add the conflicts that C5, C6 and C8 demand, run irv --csv --fill conflicts"
VARIABLES = re.compile(rb"p cnf ([0-9]+) ")


def option(words: list[str], name: str) -> str | None:
    """Returns an option's value among these arguments, or `None`."""
    for place, word in enumerate(words):
        if word == name and place + 1 < len(words):
            return words[place + 1]
        if word.startswith(f"{name}="):
            return word.partition("=")[2]
    return None


def command_of(words: list[str]) -> str | None:
    """Returns the command among these arguments: the first that is neither an option nor its value."""
    is_value = False
    for word in words:
        if not is_value and not word.startswith("-"):
            return word
        is_value = not is_value and word.startswith("--") and "=" not in word
    return None


def file_of(words: list[str]) -> str | None:
    """Returns a command's second input file, besides the configuration, or `None`."""
    name = FILE_OPTIONS.get(command_of(words))
    return None if name is None else option(words, name)


def length_of(file: str | None) -> int | None:
    """Returns a regular file's length, or `None`."""
    return Path(file).stat().st_size if file is not None and Path(file).is_file() else None


def sentences(program: Path, words: list[str], source: JsonSource | CsvSource,
              output: str) -> list[str]:
    """Returns a line for each fault, with its place, if the program's `output` refuses or rejects
    something."""
    lines = output.splitlines()
    if not lines:
        return []
    if lines[0].startswith("refused "):
        return refusals(words, source, lines)
    found = REJECTED.fullmatch(lines[0])
    return [rejection(program, words, source, lines[0], int(found[1]))] if found else []


def refusals(words: list[str], source, lines: list[str]) -> list[str]:
    """Returns a configuration's broken rules in sentences."""
    plant = explain.plant_of(source.given)
    file = file_of(words)
    told = []
    for line in lines:
        found = explain.explained(line, source.given, plant, command_of(words), length_of(file))
        if found is None:
            continue
        place = file if line.endswith(" extra") else source.place(found.entries)
        told += [f"{place}: {found.rule}: {sentence}" for sentence in found.sentences]
    can_fill = not hindrances(lines) and any(line.startswith(FILLED) for line in lines)
    return [*told, FILL] if can_fill else told


def rejection(program: Path, words: list[str], source, line: str, number: int) -> str:
    """Returns why a file is rejected, or not a run."""
    file, command = file_of(words), command_of(words)
    length = length_of(file)
    if length is None or length > MOST_BYTES:
        return f"{file}: {line}; it is not a regular file that can be read again, so no more is known."
    data, plant = Path(file).read_bytes(), explain.plant_of(source.given)
    if command == "audit":
        return f"{file}, line {number}: {proof_texts.rejected_certificate(data, number)}"
    if command == "rup":
        return f"{file}: {proof_texts.rejected_item(data, number, variables_of(program, words, source))}"
    if line.startswith("not a run"):
        at, why = run_texts.not_a_run(data, plant, number) or (None, f"Event {number} is not enabled.")
        return f"{file}{'' if at is None else f', line {at}'}: {why}"
    return f"{file}, line {number}: {run_texts.rejected(command, data, plant, number)}"


def variables_of(program: Path, words: list[str], source) -> int | None:
    """Returns the number of variables in the formula of `rup`, or `None`."""
    asked = [f"{name}={option(words, name)}" for name in ("--query", "--number", "--columns")
             if option(words, name) is not None]
    try:
        done = subprocess.run([program, "export", *asked], input=source.given, capture_output=True,
                              timeout=HEADER_SECONDS, check=False)
    except (OSError, subprocess.TimeoutExpired):
        return None
    found = VARIABLES.match(done.stdout)
    return int(found[1]) if found else None


def plant_of_answer(source: JsonSource | CsvSource, output: str) -> Plant | None:
    """Returns a configuration's plant, or `None` if the program refuses its schema, network or
    table."""
    if output.startswith(("refused F", "refused N", "refused R")):
        return None
    return explain.plant_of(source.given)
