"""Reads the verdict at the top of an HTML report, and the frame of its hazard."""

from __future__ import annotations

import re
from html.parser import HTMLParser
from pathlib import Path

from irvtools.batch.program_answers import NoAnswer
from irvtools.calls.verdict import RANKING, UNPROVED

LINE = re.compile(f"({'|'.join(map(re.escape, RANKING))})\\. (.+)")
VERDICT, HAZARD = "verdict", "hazard"  # ids of a report's first line and of its hazard's frame


class FirstLine(HTMLParser):
    """Reads the verdict's text without links, and all ids of a report."""

    def __init__(self) -> None:
        super().__init__(convert_charrefs=True)
        self.ids, self.texts = set(), []
        self.depth = self.links = 0

    def handle_starttag(self, tag, attrs):
        """Notes an id, and the start of the verdict or of a link in it."""
        id_ = dict(attrs).get("id")
        self.ids.add(id_)
        self.depth += 1 if self.depth or id_ == VERDICT else 0
        self.links += tag == "a"

    def handle_endtag(self, tag):
        """Notes the end of an element."""
        self.depth -= 1 if self.depth else 0
        self.links -= tag == "a"

    def handle_data(self, data):
        """Notes a text of the verdict."""
        if self.depth and not self.links and data.strip():
            self.texts.append(data.strip())


def read(page: Path) -> tuple[str, str, str | None]:
    """Returns a report's verdict: its word, its line without the comment on the proof, and its
    hazard frame's id, or `None` if no hazard is shown."""
    reader = FirstLine()
    reader.feed(page.read_text(encoding="utf-8", errors="replace"))
    line = ". ".join(reader.texts).removesuffix(f" {UNPROVED}")
    match = LINE.fullmatch(line)
    if match is None:
        raise NoAnswer(f"the HTML report says no verdict first: {line}")
    return match[1], line, HAZARD if HAZARD in reader.ids else None


def word_and_sentence(line: str) -> tuple[str, str]:
    """Returns the word and sentence of a verdict's line."""
    match = LINE.fullmatch(line)
    return match[1], match[2]
