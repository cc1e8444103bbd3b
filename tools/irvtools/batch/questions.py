"""Questions about a configuration: their arguments, and the file that lists them."""

from __future__ import annotations

import argparse
import shlex
from pathlib import Path
from typing import Callable, Iterable

from irvtools.csvtables import csv_text
from irvtools.batch.file_names import shown
from irvtools.calls.refusal import Refused, reason
from irvtools.checkers.verify_with import CADICAL, MOST_EVENTS

HEADER = ["configuration", "ask", "words"]
ALL = "*"                       # each configuration of the directory
LISTED = "questions.csv"
USUAL = ("check", "verify", "audit")


class Words(argparse.ArgumentParser):
    """Reads the arguments of a question; wrong ones are rejected."""

    def __init__(self):
        super().__init__(add_help=False, allow_abbrev=False)

    def error(self, message):
        raise Refused(message)


def number(least: int, most: int) -> Callable[[str], int]:
    """Returns a reader of integers within two bounds."""
    def read(word):
        if not (word.isascii() and word.isdigit() and least <= int(word) <= most):
            raise argparse.ArgumentTypeError(
                f"{shown(word)} is not a whole number from {least} to {most}")
        return int(word)
    return read


def seconds(word):
    """Reads a number of seconds."""
    try:
        read = float(word)
    except ValueError:
        read = -1.0
    if not 0 < read < 1e7:
        raise argparse.ArgumentTypeError(f"{shown(word)} is not a number of seconds")
    return read


def solver(text):
    """Reads the command line of a solver."""
    try:
        words = shlex.split(text)
    except ValueError as fault:
        raise argparse.ArgumentTypeError(f"{shown(text)}: {fault}") from fault
    if not all(any(place in word for word in words) for place in ("{cnf}", "{proof}")):
        raise argparse.ArgumentTypeError("the command line needs {cnf} and {proof}")
    return [str(Path(words[0]).resolve()), *words[1:]] if "/" in words[0] else words


OPTIONS = {
    "--columns": {"choices": ("strict", "free"), "default": "strict"},
    "--depth": {"type": number(1, MOST_EVENTS), "default": 4},
    "--conflicts": {"type": number(0, 200000), "default": 100000},
    "--run": {"required": True},
    "--k": {"type": number(1, MOST_EVENTS), "default": 1},
    "--solver": {"type": solver, "default": CADICAL},
    "--seconds": {"type": seconds},
    "--verify-seconds": {"type": number(0, 999999), "default": 20},
    "--search-seconds": {"type": number(0, 999999), "default": 15},
}
TAKES = {
    "check": ("--columns",),
    "verify": ("--columns", "--depth", "--conflicts"),
    "audit": (),
    "verify_with": ("--columns", "--k", "--solver", "--seconds"),
    "drive": ("--columns", "--run"),
    "html": ("--columns", "--depth", "--conflicts", "--verify-seconds", "--search-seconds"),
}


class Question:
    """A question about a configuration: kind, arguments as given, and their values."""

    def __init__(self, kind, text):
        if kind not in TAKES:
            raise Refused(f"{shown(kind)} is not a question; the questions are {', '.join(TAKES)}")
        reader = Words()
        for option in TAKES[kind]:
            reader.add_argument(option, **OPTIONS[option])
        try:
            words = shlex.split(text)
        except ValueError as fault:
            raise Refused(f"{kind}: {fault}") from fault
        self.kind, self.words = kind, " ".join(shlex.quote(word) for word in words)
        try:
            self.says = reader.parse_args(words)
        except Refused as fault:
            raise Refused(f"{kind}: {fault.faults[0]}") from fault

    def __eq__(self, other):
        return (self.kind, self.words) == (other.kind, other.words)


def from_words(texts: Iterable[str]) -> list[Question]:
    """Returns the questions about each configuration, from the arguments."""
    questions = []
    for text in texts:
        kind, _, words = text.strip().partition(" ")
        questions.append(Question(kind, words))
    return without_duplicates(questions, "")


def without_duplicates(questions, place):
    """Returns the questions without duplicates. Rejects an audit without a certificate."""
    once = [
        question for number_, question in enumerate(questions)
        if question not in questions[:number_]
    ]
    kinds = [question.kind for question in once]
    if "audit" in kinds and "verify" not in kinds:
        raise Refused(f"{place}audit needs verify, which writes the certificate: ask verify too")
    return once


def read_list(file: Path, names: Iterable[str]) -> dict[str, list[Question]]:
    """Returns the questions about each configuration, from a file."""
    try:
        text = file.read_bytes().decode()
    except OSError as fault:
        raise Refused(f"{shown(str(file))}: cannot be read: {reason(fault)}") from fault
    except UnicodeDecodeError as fault:
        raise Refused(f"{shown(str(file))}: not UTF-8") from fault
    separator = csv_text.SEMICOLON if csv_text.first_row(
        text, csv_text.SEMICOLON) == HEADER else csv_text.COMMA
    header, *rows = csv_text.read(shown(file.name), text, separator) or [csv_text.Row(1, [])]
    if header.cells != HEADER:
        raise Refused(f"{shown(file.name)}, line 1: the first line must be {','.join(HEADER)}")
    asked, faults = {name: [] for name in names}, []
    for row in rows:
        try:
            take_row(row, asked)
        except Refused as fault:
            faults.append(f"{shown(file.name)}, line {row.line}: {fault.faults[0]}")
    if faults:
        raise Refused(*faults)
    return {name: without_duplicates(questions, f"{shown(file.name)}: {shown(name)}: ")
            for name, questions in asked.items()}


def take_row(row, asked):
    """Takes a row of the file; ignores empty lines."""
    if row.cells == [""]:
        return
    if len(row.cells) != len(HEADER):
        raise Refused(f"{len(row.cells)} cells instead of {len(HEADER)}")
    name, kind, words = row.cells
    if name != ALL and name not in asked:
        raise Refused(f"{shown(name)} is not a configuration of the directory")
    question = Question(kind, words)
    for each in (asked if name == ALL else [name]):
        asked[each].append(question)
