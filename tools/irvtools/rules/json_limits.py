"""Texts that Python reads as JSON but `irv`, which uses `serde_json`, does not. They have deep
nesting, halves of surrogate pairs, numbers out of range, or whole numbers that `irv` does not take
as whole."""

from __future__ import annotations

import json
import math
import re

MOST_LEVELS = 127
STRING = re.compile(r'"(?:[^"\\]|\\.)*"')
HALF = re.compile(r"[\ud800-\udfff]")


def place_of(text: str, at: int) -> str:
    """Returns line and column of a character, in words."""
    return f"Line {text.count(chr(10), 0, at) + 1}, column {at - text.rfind(chr(10), 0, at)}"


def faults(given: bytes) -> list[str]:
    """Returns why `irv` refuses by F2 a text that Python reads, if known."""
    text = given.decode()
    found = too_deep(text)
    if found is not None:
        return [f"{place_of(text, found)}: arrays and objects are nested more than {MOST_LEVELS} levels deep."]
    for string in STRING.finditer(text):
        if HALF.search(json.loads(string[0], strict=False)):
            return [f"{place_of(text, string.start())}: the text has half of a surrogate pair (\\uD800 to "
                    "\\uDFFF) without its other half."]
    words = []
    json.loads(text, parse_float=lambda word: words.append(word) or 0.0, parse_int=lambda word: 0)
    large = [word for word in words if math.isinf(float(word))]
    return [f"The number {large[0]} is too large."] if large else []


def too_deep(text: str) -> int | None:
    """Returns the position at which a text exceeds the nesting limit, or `None`."""
    level = 0
    for mark in re.finditer(r'"(?:[^"\\]|\\.)*"|[\[\]{}]', text):
        level += (mark[0] in "[{") - (mark[0] in "]}")
        if level > MOST_LEVELS:
            return mark.start()
    return None


def version_faults(given: bytes) -> list[str]:
    """Returns a fault if `irv` does not take the version as a whole number."""
    version = json.loads(given, parse_int=str).get("version")
    if version == "-0":
        return ["The member version is -0, which is not a whole number here, and should be 1 or 2."]
    return []
