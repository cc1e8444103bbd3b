"""Tables of Markdown documents."""

from __future__ import annotations

import re


def rows(text: str, *heads: str) -> list[list[str]]:
    """Returns the rows of each table whose header begins with `heads`, as lists of cells."""
    found, inside = [], False
    for line in text.splitlines():
        cells = [cell.strip() for cell in re.split(r"(?<!\\)\|", line)[1:-1]]
        if tuple(cells[:len(heads)]) == heads:
            inside = True
        elif not line.startswith("|"):
            inside = False
        elif inside and not line.startswith("|---"):
            found.append(cells)
    return found
