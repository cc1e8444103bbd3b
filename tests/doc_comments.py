"""Checks that each public item of the crates has a doc comment.

Items are functions, types, constants and traits with `pub`, also methods in `impl` blocks, and what a public trait
declares. Items with `pub(crate)` are not public, and `pub use` repeats a comment that is elsewhere. Attributes may be
between a comment and its item.
"""

from __future__ import annotations

import re
from typing import Iterable

from irvtools.paths import TOP
from tests.support.harness import Test

KEYWORD = r"(?:(?:const|unsafe|async) )*(?:fn|struct|enum|union|trait|const|static|type)\b"
PUBLIC = re.compile(rf" *pub {KEYWORD}")
DECLARED = re.compile(rf" *{KEYWORD}")
TRAIT = re.compile(r"( *)pub (?:unsafe )?trait\b")
DOC = re.compile(r" *///\s*\S")
ATTRIBUTE = re.compile(r" *#\[")

GOOD = """/// A pair.
#[derive(Drop)]
pub struct Pair {
    pub first: u8,
}

impl Pair {
    #[tactic(auto, using(
        crate::proofs::A::b,
    ))]
    /// Returns the first.
    pub fn first(&self) -> u8 {
        self.first
    }

    pub(crate) fn second(&self) -> u8 {
        0
    }
}

pub use other::Thing;

/// Has a word.
pub trait Worded {
    ghost word_of: { Self };

    /// Returns the word.
    fn word(self) -> u8;
}

impl Worded for Pair {
    fn word(self) -> u8 {
        0
    }
}
"""


def has_comment(lines: list[str], index: int) -> bool:
    """Returns whether the item on the line `index` has a doc comment above it, perhaps above its attributes."""
    index -= 1
    while index >= 0 and not DOC.match(lines[index]):
        first = index
        while first >= 0 and lines[first].strip() and not ATTRIBUTE.match(lines[first]):
            first -= 1              # an attribute may have several lines
        if first < 0 or not is_attribute(lines[first:index + 1]):
            return False
        index = first - 1
    return index >= 0


def is_attribute(lines: list[str]) -> bool:
    """Returns whether lines are one whole attribute."""
    text = "\n".join(lines)
    return bool(ATTRIBUTE.match(text)) and text.endswith("]") and text.count("[") == text.count("]")


def public_items(lines: list[str]) -> Iterable[int]:
    """Yields the index of the first line of each public item."""
    end_of_trait = None
    for index, line in enumerate(lines):
        opened = TRAIT.match(line)
        if PUBLIC.match(line) or end_of_trait is not None and DECLARED.match(line):
            yield index
        if opened:
            end_of_trait = None if line.endswith("}") else opened[1] + "}"
        elif line == end_of_trait:
            end_of_trait = None


def items_of(texts: dict[str, str]) -> list[tuple[str, int, str, bool]]:
    """Returns the public items of files: file, number of the line, the line, and whether it has a comment."""
    return [(file, index + 1, lines[index].strip(), has_comment(lines, index))
            for file, text in texts.items() for lines in [text.split("\n")] for index in public_items(lines)]


def faults_of(items: list[tuple[str, int, str, bool]]) -> Iterable[str]:
    """Yields the items without a comment."""
    return (f"{file}:{line}: no doc comment: {text}" for file, line, text, is_commented in items if not is_commented)


class DocCommentTests(Test):
    """The public items of all crates."""

    def test_self_check(self):
        """Each item of a good file counts, and each one without its comment is found."""
        self.assertEqual([line for _, line, *_ in items_of({"a.rt": GOOD})], [3, 12, 24, 28])
        self.assertEqual(list(faults_of(items_of({"a.rt": GOOD}))), [])
        lines = GOOD.split("\n")
        comments = [index for index, line in enumerate(lines) if DOC.match(line)]
        for index in comments:
            for other in ([], ["    // A comment."], ["    ///"], ["    }"]):
                changed = "\n".join(lines[:index] + other + lines[index + 1:])
                self.assertEqual(len(list(faults_of(items_of({"a.rt": changed})))), 1, changed)
        for kind in ("fn a()", "const fn a()", "struct A;", "enum A {", "trait A {}", "const A: u8 = 0;", "type A = u8;"):
            self.assertEqual(len(list(faults_of(items_of({"a.rt": f"pub {kind}"})))), 1, kind)

    def test_public_items(self):
        """Each public item has a doc comment."""
        texts = {path.relative_to(TOP).as_posix(): path.read_text(encoding="utf-8")
                 for path in sorted(TOP.glob("crates/*/src/**/*.rt"))}
        items = items_of(texts)
        self.assertGreater(len(items), 0)
        self.see(faults_of(items), len(items))
