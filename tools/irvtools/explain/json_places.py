"""Line and column of a configuration's sections, routes and members."""

from __future__ import annotations

import re
from json import JSONDecoder
from json.decoder import scanstring

SPACE = re.compile(r"[ \t\r\n]*")
OTHER = re.compile(r"[^\s,\]}]+")       # a number, null, true or false
DEEPEST = 3                             # steps to a member of an entry
DECODER = JSONDecoder()


class Places:
    """Starts of a JSON text's values, by the steps to them. The text must be valid."""

    def __init__(self, text: str) -> None:
        self.text = text
        self.begins: dict[tuple, int] = {}
        self.value(self.skip(0), ())

    def skip(self, at: int) -> int:
        """Returns the end of the white space at `at`."""
        return SPACE.match(self.text, at).end()

    def value(self, at: int, steps: tuple) -> int:
        """Reads the value at `at`; returns its end."""
        if len(steps) > DEEPEST:
            return DECODER.raw_decode(self.text, at)[1]
        self.begins[steps] = at
        if self.text[at] == "{":
            return self.members(at, steps)
        if self.text[at] == "[":
            return self.entries(at, steps)
        return scanstring(self.text, at + 1)[1] if self.text[at] == '"' else OTHER.match(self.text, at).end()

    def members(self, at: int, steps: tuple) -> int:
        """Reads an object; returns its end."""
        at = self.skip(at + 1)
        while self.text[at] != "}":
            name, at = scanstring(self.text, at + 1)
            at = self.skip(self.value(self.skip(self.skip(at) + 1), (*steps, name)))
            at = self.skip(at + 1) if self.text[at] == "," else at
        return at + 1

    def entries(self, at: int, steps: tuple) -> int:
        """Reads an array; returns its end."""
        number, at = 0, self.skip(at + 1)
        while self.text[at] != "]":
            at = self.skip(self.value(at, (*steps, number)))
            at = self.skip(at + 1) if self.text[at] == "," else at
            number += 1
        return at + 1

    def line_and_column(self, *steps) -> tuple[int, int] | None:
        """Returns line and column, from 1, of the value at these steps, or of the entry that lacks
        it; `None` if neither exists."""
        while steps and tuple(steps) not in self.begins:
            steps = steps[:-1]
        if not steps:
            return None
        at = self.begins[tuple(steps)]
        return self.text.count("\n", 0, at) + 1, at - self.text.rfind("\n", 0, at)
