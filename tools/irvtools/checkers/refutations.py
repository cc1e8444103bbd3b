"""Texts that refute a query's formula, changes of them, and the program's own answers.

The expected answers are those of rup.py. It shares only the formula, which `irv export` prints,
with the program.
"""

from __future__ import annotations

import functools
import io
import os
import random
import subprocess
import threading
from pathlib import Path
from typing import Iterable, Iterator

from irvtools.checkers import compiled, exported, rup

Items = list

OTHER_WORDS = [b"1", b"-1", b"2", b"-7", b"d", b"x", b"01", b"-0", b"+1", b"99999999",
               b"18446744073709551617"]
STATUS_OF = {"refuted": 0, "refused": 5, "rejected": 6}
LONGEST = 67108864      # most bytes that rup reads
SHORT = 20000           # rup.py also gets texts up to this many bytes


def items_of(text: bytes) -> Items:
    """Returns the items of a text, each a list of words."""
    return list(rup.items_of(rup.words_of(text)))


def text_of(items: Items) -> bytes:
    """Returns a text with each of these items on a line."""
    return b"".join(b" ".join(item) + b"\n" for item in items)


def only_additions(lines: Iterable[bytes]) -> Iterator[bytes]:
    """Yields a solver's lines without deletions, which may be half of them."""
    return (line for line in lines if not line.startswith(b"d"))


def additions_of(text: bytes) -> bytes:
    """Returns a whole text without deletions."""
    return b"".join(only_additions(io.BytesIO(text)))


def steps_text(steps: Iterable[tuple[tuple[int, ...], list[int]]]) -> bytes:
    """Returns the clauses of a certificate's steps as a text."""
    return text_of([[*(str(literal).encode() for literal in clause), b"0"] for clause, _ in steps])


def opposite(word):
    """Returns the word of the opposite literal."""
    return word[1:] if word.startswith(b"-") else b"-" + word


def with_literal(items, chance, change):
    """Returns the items after `change` replaced a random literal, and how many items before it
    stay, or `None` without a literal."""
    places = [(one, place) for one, item in enumerate(items) for place, word in enumerate(item)
              if word not in (b"0", b"d")]
    if not places:
        return None
    one, place = chance.choice(places)
    item = items[one]
    return [*items[:one], [*item[:place], *change(item[place]), *item[place + 1:]], *items[one + 1:]], one


def sign_changed(items, chance):
    """Changes the sign of a literal."""
    return with_literal(items, chance, lambda word: [opposite(word)])


def literal_doubled(items, chance):
    """Duplicates a literal, which changes nothing."""
    return with_literal(items, chance, lambda word: [word, word])


def literal_added(items, chance):
    """Adds a literal, or a word that is not one."""
    new = chance.choice(OTHER_WORDS)
    return with_literal(items, chance, lambda word: [word, new])


def literal_left_out(items, chance):
    """Leaves out a literal."""
    return with_literal(items, chance, lambda word: [])


def left_out(items, chance):
    """Leaves out an item."""
    one = chance.randrange(len(items))
    return items[:one] + items[one + 1:], one


def deleted(items, chance):
    """Turns an item into a deletion."""
    one = chance.randrange(len(items))
    words = [word for word in items[one] if word != b"d"]
    return [*items[:one], [b"d", *words], *items[one + 1:]], one


def swapped(items, chance):
    """Swaps two items."""
    one, other = sorted(chance.randrange(len(items)) for _ in range(2))
    changed = [*items[:other], items[one], *items[other + 1:]]
    changed[one] = items[other]
    return changed, one


KINDS = (sign_changed, left_out, literal_added, literal_left_out, literal_doubled, deleted, swapped)


def cut(items, chance):
    """Returns the text cut at a random length, and how many items stay."""
    text = text_of(items)
    length = chance.randrange(len(text))
    return text[:length], text[:length].count(b"\n")


def changes(text: bytes, count: int, seed: int) -> Iterator[tuple[bytes, int]]:
    """Yields up to `count` random changes of a text with right items, each with the number of items
    that stay. The same seed gives the same changes."""
    items, chance = items_of(text), random.Random(seed)
    if not items:
        return
    for number in range(count):
        if number % 5 == 4:
            yield cut(items, chance)
            continue
        found = KINDS[number % len(KINDS)](items, chance)
        if found:
            yield text_of(found[0]), found[1]


class Refutations:
    """A configuration's queries under free columns, with a directory for files.

    The compiled checker at `judge` gives the expected answers, or if that is `None` rup.py."""

    def __init__(self, program, conf: bytes, directory: Path, judge: Path | None = None) -> None:
        self.program, self.conf, self.directory = program, conf, directory
        self.formula_of = functools.lru_cache(None)(exported.formulas_of(program, conf, "free"))
        self.compiled = judge and compiled.CompiledRupChecker(
            judge, directory, lambda kind, number: exported.text_of(program, conf, "free", kind, number))

    def expected(self, kind: str, number: int, text: bytes, known: int = 0) -> str:
        """Returns the program's expected answer to a text whose first `known` items are right."""
        by_compiled = self.compiled and self.compiled.answer(kind, number, text)
        if by_compiled and len(text) > SHORT:
            return by_compiled
        found = rup.answer(f"{kind} {number}", *self.formula_of(kind, number), text, known)
        return found if by_compiled in (None, found) else f"{found} by rup.py, and {by_compiled} by rup_judge.c"

    def answer(self, kind: str, number: int, text: bytes) -> str:
        """Returns the line that the program answers to a text, or its other output."""
        path = self.directory / f"text-{os.getpid()}-{threading.get_ident()}"
        path.write_bytes(text)
        words = ["rup", "--columns", "free", "--query", kind, "--number", str(number), "--cert", str(path)]
        done = subprocess.run([str(self.program), *words], input=self.conf, stdout=subprocess.PIPE,
                              stderr=subprocess.PIPE)
        said = done.stdout.decode(errors="replace")
        if done.stderr or done.returncode != STATUS_OF.get(said.partition(" ")[0]) or said[-1:] != "\n":
            return f"status {done.returncode}, {said!r} and {done.stderr!r}"
        return said[:-1]
