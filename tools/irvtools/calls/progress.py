"""A tool's progress on a terminal."""

from __future__ import annotations

import sys


class Progress:
    """Prints a tool's activity if standard error is a terminal."""

    def __init__(self, name: str) -> None:
        self.name, self.is_shown = name, sys.stderr.isatty()

    def say(self, words: str) -> None:
        """Prints the current activity."""
        if self.is_shown:
            print(f"{self.name}: {words}", file=sys.stderr, flush=True)
