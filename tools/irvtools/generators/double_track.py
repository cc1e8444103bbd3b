"""Double-track lines: stations with crossovers, and loops, in a row on two tracks x and y.

A line is written as letters for its parts, upwards from the left. A number repeats the next letter,
as in `b2Ls`:

- `s`: a station of two tracks, with two crossovers at each end; 8 points, 10 sections in all.

- `b`: one of four tracks, two of which branch off behind the crossovers; 12 points, 16 sections in
  all.

- `L`: a loop beside each track; 4 points, 8 sections in all.

Open line is before, between and behind the parts. The routes are those of the network.
"""

from __future__ import annotations

import json
import re

from irvtools.generators import route_tables
from irvtools.generators.configurations import linear, point

LINE = re.compile(r"(?:[0-9]*[sbL])+")


def letters_of(word: str) -> str:
    """Returns a line's letters, one for each part."""
    return "".join(letter * int(count or 1) for count, letter in re.findall(r"([0-9]*)([sbL])", word))


def crossovers(side, number, facing, line, tracks, has_branches):
    """Returns the points at a station's end: side w or e, `facing` of the points with their stem on
    the open line, that line's number, and the tracks."""
    a, b, c, d, e, h = (f"{side}{letter}{number}" for letter in "abcdeh")
    other = "down" if facing == "up" else "up"
    first, second, third, fourth = tracks
    points = [point(a, facing, f"x{line}", d, b), point(b, other, c, f"y{line}", a),
              point(c, facing, b, h if has_branches else second, d),
              point(d, other, e if has_branches else first, a, c)]
    if has_branches:
        points += [point(e, facing, d, first, third), point(h, facing, c, second, fourth)]
    return points


def station(number, has_branches):
    """Returns a station between the open lines `number` and `number` + 1."""
    tracks = [f"k{number}_{i}" for i in range(1, 5)]
    ends = "eheh" if has_branches else "dc"
    return [*crossovers("w", number, "up", number, tracks, has_branches),
            *crossovers("e", number, "down", number + 1, tracks, has_branches),
            *(linear(name, f"w{end}{number}", f"e{end}{number}", f"{name}_D", f"{name}_U")
              for name, end in zip(tracks, ends))]


def loops(number):
    """Returns a loop of two tracks on each line."""
    sections = []
    for line in "xy":
        p, q, t, u = (f"{letter}{line}{number}" for letter in "pqtu")
        sections += [point(p, "up", f"{line}{number}", t, u), point(q, "down", f"{line}{number + 1}", t, u),
                     *(linear(name, p, q, f"{name}_D", f"{name}_U") for name in (t, u))]
    return sections


def ends_of(letter, number, line, side):
    """Returns the section that joins a part to an open line at its left (w) or right (e) end."""
    if letter == "L":
        return f"{'p' if side == 'w' else 'q'}{line}{number}"
    return f"{side}{'a' if line == 'x' else 'b'}{number}"


def open_lines(letters):
    """Returns the open lines' sections, with a board for each train towards a part."""
    for number in range(len(letters) + 1):
        for line in "xy":
            name = f"{line}{number}"
            down = ends_of(letters[number - 1], number - 1, line, "e") if number else "."
            up = ends_of(letters[number], number, line, "w") if number < len(letters) else "."
            yield linear(name, down, up, "." if down == "." else f"{name}_D", "." if up == "." else f"{name}_U")


def configuration(word: str) -> bytes:
    """Returns the bytes of a line's configuration."""
    letters = letters_of(word)
    sections = []
    for number, letter in enumerate(letters):
        sections += loops(number) if letter == "L" else station(number, letter == "b")
    network = {"version": 1, "sections": [*sections, *open_lines(letters)], "routes": []}
    return json.dumps(route_tables.with_routes(network), separators=(",", ":")).encode()
