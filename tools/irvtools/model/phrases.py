"""Lists, points and ways in words."""

from __future__ import annotations

from typing import Iterable

from irvtools.model.plant import Plant

SIGNS = {"plus": "+", "minus": "-"}


def join(words: Iterable[str], last: str = "and") -> str:
    """Returns words as a sentence lists them."""
    words = list(words)
    if len(words) < 2:
        return "".join(words)
    return f"{', '.join(words[:-1])} {last} {words[-1]}"


def point_word(listed: dict[str, str]) -> str:
    """Returns a listed point with the sign of its position."""
    return listed["point"] + SIGNS[listed["position"]]


def list_words(listed: list[str] | list[dict[str, str]]) -> list[str]:
    """Returns the words of a list: names, or points with the signs of their positions."""
    return [one if isinstance(one, str) else point_word(one) for one in listed]


def way_words(plant: Plant, x: int, side: str) -> str:
    """Returns the neighbours of a section on a side, in words."""
    names = [plant.name(y) for y in plant.next_to(x, side)]
    return join(names, "or") if names else "nothing"
