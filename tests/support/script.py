"""The command lines of test scripts outside CI, and the line with their counts."""

from __future__ import annotations

import argparse
import os

from irvtools.arguments import Parser, whole_number


class ScriptParser(Parser):
    """The parser of a script `tests/NAME`, with its program option."""

    def __init__(self, name: str, description: str, usage: str = "[OPTIONS]") -> None:
        super().__init__(f"tests/{name}", description, 2, f"tests/{name} {usage}")
        self.program()

    def processes(self) -> None:
        """Adds the option for the number of processes."""
        count = os.cpu_count() or 1
        self.number("--processes", f"processes at once ({count} here)", 1, count)

    def number(self, name: str, text: str, least: int, default: int) -> None:
        """Adds an option that takes a whole number."""
        self.once(name, text, metavar="N", type=whole_number(least, 10 ** 9), default=default)

    def read(self, words: list[str]) -> argparse.Namespace:
        """Returns the arguments with the program's absolute path, or ends with the fault."""
        given = self.parse_args(words)
        given.program = given.program.resolve()
        if not given.program.is_file():
            self.error(f"the program {given.program} does not exist; build it with ./irv --build, or give "
                       "--program FILE")
        return given


def counted(checked: int, failed: int) -> int:
    """Prints how many checks passed and failed. Returns the exit status, 0 if none failed."""
    print(f"{checked - failed} passed, {failed} failed", flush=True)
    return 0 if checked and not failed else 1
