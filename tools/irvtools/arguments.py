"""Command lines of tools: help with defaults, and one-line faults."""

from __future__ import annotations

import argparse
import sys
from pathlib import Path
from typing import Callable

from irvtools.paths import PROGRAM


class _Help(argparse.RawDescriptionHelpFormatter):
    """Help texts that keep their lines, 96 columns wide."""

    def __init__(self, prog: str) -> None:
        super().__init__(prog, max_help_position=30, width=96)


class _Once(argparse.Action):
    """Stores a value, and refuses a repeated option."""

    def __call__(self, parser, namespace, values, option_string=None):
        given = vars(namespace).setdefault("given_once", set())
        if self.dest in given:
            parser.error(f"{option_string} is given twice")
        given.add(self.dest)
        setattr(namespace, self.dest, True if self.nargs == 0 else values)


class Parser(argparse.ArgumentParser):
    """An argument parser that answers wrong arguments with one line and the exit status `status`."""

    def __init__(self, name: str, description: str, status: int, usage: str | None = None) -> None:
        super().__init__(prog=name, description=description, usage=usage, allow_abbrev=False,
                         formatter_class=_Help)
        self.status = status

    def error(self, message: str):
        """Ends the tool with `message`."""
        self.exit(self.status, f"{self.prog}: {message}; see {self.prog} --help\n")

    def once(self, name: str, text: str, **how) -> None:
        """Adds an option with a value, at most once."""
        self.add_argument(name, action=_Once, help=text, **how)

    def flag(self, name: str, text: str) -> None:
        """Adds an option without a value, at most once."""
        self.add_argument(name, action=_Once, nargs=0, default=False, help=text)

    def program(self) -> None:
        """Adds the option that names the program. The launcher gives it first; the last one counts."""
        self.add_argument("--program", help="the program that is called (crates/irv/out/irv)", type=Path,
                          default=PROGRAM, metavar="FILE")


def whole_number(least: int, greatest: int) -> Callable[[str], int]:
    """Returns a reader of decimal numbers from `least` to `greatest`."""
    def read(word: str) -> int:
        is_number = word.isascii() and word.isdigit() and len(word) < 16
        if not is_number or not least <= int(word) <= greatest:
            raise argparse.ArgumentTypeError(
                f"{word!r} is not a whole number from {least} to {greatest}")
        return int(word)
    return read


def standard_input(tool: str, status: int, most: int = -1) -> bytes:
    """Returns at most `most` bytes of standard input. If it is unreadable, ends the tool with one
    line and the exit status `status`."""
    why = "it is closed"
    try:
        if sys.stdin is not None:
            return sys.stdin.buffer.read(most)
    except OSError as fault:
        why = fault.strerror
    print(f"{tool}: standard input cannot be read: {why}", file=sys.stderr)
    raise SystemExit(status)
