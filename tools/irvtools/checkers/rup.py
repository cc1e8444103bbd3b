"""Checks a refutation without hints, in the clause text that solvers write. It shares nothing with
the program but the grammar: it tests an item by setting the opposites of its literals, in plain
lists.

    checkers/rup.py FORMULA TEXT

prints `refuted`, or `rejected item I` with the number of the first bad item.
"""

from __future__ import annotations

import re
import sys
from pathlib import Path
from typing import Iterable, Iterator

LITERAL = re.compile(rb"-?[1-9][0-9]*")


def words_of(text: bytes) -> Iterator[bytes]:
    """Yields the words of a text. Lines whose first byte is c are left out, the rest is split at
    spaces, tabs and carriage returns."""
    for line in text.split(b"\n"):
        if not line.startswith(b"c"):
            yield from (word for word in re.split(rb"[ \t\r]", line) if word)


def items_of(words: Iterable[bytes]) -> Iterator[list[bytes]]:
    """Yields the items. Each ends with the next word 0, which the last may lack."""
    item = []
    for word in words:
        item.append(word)
        if word == b"0":
            yield item
            item = []
    if item:
        yield item


def literals_of(words: list[bytes], variables: int) -> list[int] | None:
    """Returns the literals before the last word, which must be 0; `None` if a word is not a
    literal."""
    if not words or words[-1] != b"0":
        return None
    if not all(LITERAL.fullmatch(word) for word in words[:-1]):
        return None
    literals = [int(word) for word in words[:-1]]
    return literals if all(abs(literal) <= variables for literal in literals) else None


class Clauses:
    """Clauses, with what they set at the start. A clause with two literals that aren't false is
    visited only if one of its first two becomes false."""

    def __init__(self, variables, clauses):
        # By literal, negative ones from the end: 1 is true, -1 false.
        self.value = [0] * (2 * variables + 1)
        self.watching = [[] for _ in self.value]
        self.true = []
        self.refuted = False
        for clause in clauses:
            self.add(set(clause))

    def set_true(self, literal):
        """Sets an unset literal."""
        self.value[literal], self.value[-literal] = 1, -1
        self.true.append(literal)

    def add(self, clause):
        """Adds a clause with its consequences."""
        if self.refuted:
            return
        literals = sorted(clause, key=lambda literal: self.value[literal] < 0)
        left = sum(self.value[literal] >= 0 for literal in literals[:2])
        if left == 2:
            self.watching[literals[0]].append(literals)
            self.watching[literals[1]].append(literals)
        elif left == 0:
            self.refuted = True
        elif self.value[literals[0]] == 0:
            begin = len(self.true)
            self.set_true(literals[0])
            self.refuted = not self.close(begin)

    def close(self, at):
        """Sets all consequences of the literals from `at` on. Returns `False` if a clause is false."""
        value, watching, true = self.value, self.watching, self.true
        while at < len(true):
            lost = -true[at]
            at += 1
            kept, looked_at = [], watching[lost]
            for place, clause in enumerate(looked_at):
                if clause[0] == lost:
                    clause[0], clause[1] = clause[1], lost
                other = clause[0]
                if value[other] > 0:
                    kept.append(clause)
                    continue
                for index in range(2, len(clause)):
                    if value[clause[index]] >= 0:
                        clause[1], clause[index] = clause[index], lost
                        watching[clause[1]].append(clause)
                        break
                else:
                    kept.append(clause)
                    if value[other] < 0:
                        watching[lost] = kept + looked_at[place + 1:]
                        return False
                    self.set_true(other)
            watching[lost] = kept
        return True

    def gives(self, clause):
        """Returns whether propagation from the clause's opposite literals makes a clause false."""
        if self.refuted or any(self.value[literal] > 0 for literal in clause):
            return True
        begin = len(self.true)
        for literal in clause:
            if self.value[literal] == 0:
                self.set_true(-literal)
        holds = self.close(begin)
        for literal in self.true[begin:]:
            self.value[literal] = self.value[-literal] = 0
        del self.true[begin:]
        return not holds


def first_bad(variables: int, formula: Iterable[Iterable[int]], text: bytes,
              known: int = 0) -> int | None:
    """Returns the number of the first bad item, or `None` if the text is accepted. The first
    `known` items are right: they begin a text judged before."""
    clauses = Clauses(variables, formula)
    number = 0
    for number, item in enumerate(items_of(words_of(text)), 1):
        keeps = item[0] == b"d"
        literals = literals_of(item[1:] if keeps else item, variables)
        if literals is None:
            return number
        clause = set(literals)
        if keeps or any(-literal in clause for literal in clause):
            continue
        if number > known and not clauses.gives(clause):
            return number
        clauses.add(clause)
    return None if clauses.refuted else number + 1


def answer(query: str, variables: int, formula: Iterable[Iterable[int]], text: bytes,
           known: int = 0) -> str:
    """Returns the program's expected answer to a text for a query."""
    bad = first_bad(variables, formula, text, known)
    return f"refuted {query}" if bad is None else f"rejected item {bad}"


def main():
    """Reads the two files and prints the result."""
    from irvtools.checkers import dimacs

    if len(sys.argv) != 3:
        sys.exit(__doc__.strip())
    variables, clauses = dimacs.read(Path(sys.argv[1]).read_bytes())
    bad = first_bad(variables, clauses, Path(sys.argv[2]).read_bytes())
    print("refuted" if bad is None else f"rejected item {bad}")
