"""The text positions on a page's printed sheets, and the headings that end a sheet, read from
Chromium's PDF."""

from __future__ import annotations

import base64
import re
import tempfile
import zlib
from pathlib import Path
from typing import Iterator

STREAM = re.compile(rb"stream\r?\n(.*?)endstream", re.S)
TOKEN = re.compile(rb"(?P<q>^q$)|(?P<Q>^Q$)|(?P<cm>^[-0-9. ]+ cm$)|(?P<Tf>^/\w+ [-0-9.]+ Tf$)"
                   rb"|(?P<Tm>^[-0-9. ]+ Tm$)", re.M)
HEADINGS = (16.67, 15.0)        # of h2 and h3 on paper, in pixels
NEAR = 0.2
BELOW = 6                       # pixels that another text must be below a heading


def times(one: tuple, other: tuple) -> tuple:
    """Returns the product of two transformations, of which `one` acts first."""
    a, b, c, d, e, f = one
    g, h, i, j, k, m = other
    return (a * g + b * i, a * h + b * j, c * g + d * i, c * h + d * j, e * g + f * i + k, e * h + f * j + m)


def texts(stream: bytes) -> Iterator[tuple]:
    """Yields the texts of a sheet: distance from the top and letter size, in pixels."""
    now, kept, size = (1, 0, 0, 1, 0, 0), [], 0.0
    for match in TOKEN.finditer(stream):
        kind, numbers = match.lastgroup, [float(one) for one in re.findall(rb"(?<![\w/])-?[0-9]*\.?[0-9]+",
                                                                          match[0])]
        if kind == "q":
            kept.append(now)
        elif kind == "Q":
            now = kept.pop() if kept else now
        elif kind == "cm":
            now = times(tuple(numbers), now)
        elif kind == "Tf":
            size = numbers[-1]
        else:
            placed = times(tuple(numbers), now)
            scale = abs(placed[3]) / 0.75       # from points to pixels
            yield -placed[5] / 0.75, size * scale


def sheets(data: bytes) -> Iterator[list]:
    """Yields the texts of each sheet of a PDF that has any."""
    for match in STREAM.finditer(data):
        try:
            stream = zlib.decompress(match[1])
        except zlib.error:
            continue
        if b"BT\n" in stream:
            yield list(texts(stream))


def printed(running, text: str) -> bytes:
    """Returns a browser's PDF of a page."""
    with tempfile.TemporaryDirectory(prefix="irv-paper-") as directory:
        file = Path(directory, "page.html")
        file.write_text(text, encoding="utf-8")
        shown = running.page()
        shown.open(file)
        data = shown.call("Page.printToPDF", preferCSSPageSize=True, printBackground=True)["data"]
        running.call("Target.closeTarget", targetId=shown.target)
    return base64.b64decode(data)


def is_heading(size: float) -> bool:
    """Returns whether a letter size is a heading's."""
    return any(abs(size - heading) < NEAR for heading in HEADINGS)


def orphans(running, text: str) -> Iterator[str]:
    """Yields a sentence for each sheet that ends with a heading, and if there is no heading."""
    headings = 0
    for number, sheet in enumerate(sheets(printed(running, text)), 1):
        found = [down for down, size in sheet if is_heading(size)]
        headings += len(found)
        lowest = max(down for down, _ in sheet)
        if found and lowest < max(found) + BELOW:
            yield f"sheet {number} ends with a heading"
    if not headings:
        yield "no heading was found on paper"
