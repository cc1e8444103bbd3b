"""Reads formulas in the DIMACS CNF format strictly, and counts their satisfying assignments."""

from __future__ import annotations

import re
from typing import Iterable

NUMBER = "(?:0|[1-9][0-9]*)"
HEADER = re.compile(rf"p cnf ({NUMBER}) ({NUMBER})")
CLAUSE = re.compile(r"(?:-?[1-9][0-9]* )*0")


class DimacsError(Exception):
    """A text that isn't in the format. The message names the line."""


def lines_of(text: bytes) -> list[str]:
    """Returns the lines of an ASCII text, each ended by one line feed."""
    if not text.isascii():
        raise DimacsError("a byte that isn't ASCII")
    *lines, rest = text.decode().split("\n")
    if rest:
        raise DimacsError(f"line {len(lines) + 1}: no line feed after it")
    return lines


def read_clause(line, number, variables):
    """Returns the literals of a clause's line."""
    if not CLAUSE.fullmatch(line):
        raise DimacsError(f"line {number}: no clause: {line[:100]!r}")
    clause = tuple(int(word) for word in line.split(" ")[:-1])
    if any(abs(literal) > variables for literal in clause):
        raise DimacsError(f"line {number}: there are {variables} variables")
    return clause


def read(text: bytes) -> tuple[int, list[tuple[int, ...]]]:
    """Returns the number of variables and the clauses, in order."""
    lines = lines_of(text)
    header = HEADER.fullmatch(lines[0]) if lines else None
    if not header:
        raise DimacsError("line 1: no header")
    variables, count = int(header[1]), int(header[2])
    if count != len(lines) - 1:
        raise DimacsError(f"the header says {count} clauses, and there are {len(lines) - 1}")
    return variables, [read_clause(line, number, variables)
                       for number, line in enumerate(lines[1:], 2)]


def propagated(clauses: list[tuple[int, ...]], literals: Iterable[int]) -> set[int] | None:
    """Returns the literals that are true after propagation, or `None` if a clause is false."""
    true = set(literals)
    moved = True
    while moved:
        moved = False
        for clause in clauses:
            if any(literal in true for literal in clause):
                continue
            unset = [literal for literal in clause if -literal not in true]
            if not unset:
                return None
            if len(unset) == 1:
                true.add(unset[0])
                moved = True
    return true


def count_assignments(formula: tuple[int, list[tuple[int, ...]]], most: int) -> int:
    """Returns the number of satisfying assignments of a small formula, by trying both values of
    each variable. It stops above `most`."""
    variables, clauses = formula
    count = 0
    open_ones = [()]
    while open_ones and count <= most:
        true = propagated(clauses, open_ones.pop())
        if true is None:
            continue
        unset = next((variable for variable in range(1, variables + 1)
                      if variable not in true and -variable not in true), None)
        if unset is None:
            count += 1
        else:
            open_ones += [(*true, unset), (*true, -unset)]
    return count
