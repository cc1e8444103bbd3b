"""Checks refutations in the LRAT format, over formulas in the DIMACS CNF format.

It is written from the published format only (L. Cruz-Filipe, M. J. H. Heule, W. A. Hunt, M.
Kaufmann and P. Schneider-Kamp, "Efficient certified RAT verification", CADE 2017). It knows nothing
of certificates, and shares nothing with their checker. A line is

    NUMBER LITERALS 0 HINTS 0      adds a clause, which follows by unit propagation along its hints
    NUMBER d NUMBERS 0             deletes clauses

The formula's clauses are numbered from 1. Each added clause has a greater number than all before.
First its literals are set false. Each hint then names a clause whose literals are all false, which
ends the line, or all but an unset one, which becomes true. Hints by resolution (those with a sign)
are rejected: a certificate doesn't need them.
"""

from __future__ import annotations

import re

ADDED = re.compile(r"([1-9][0-9]*) ((?:-?[1-9][0-9]* )*)0 ((?:-?[1-9][0-9]* )*)0")
DELETED = re.compile(r"[1-9][0-9]* d ((?:[1-9][0-9]* )*)0")


class LratError(Exception):
    """A text that is not a refutation of its formula. The message names the line."""


def read_formula(text):
    """Returns the clauses of a formula by their numbers."""
    clauses, open_literals, wanted = {}, [], None
    for line in text.splitlines():
        words = line.split()
        if not words or words[0] == "c":
            continue
        if words[0] == "p":
            wanted = int(words[3])
            continue
        for literal in map(int, words):
            if literal:
                open_literals.append(literal)
            else:
                clauses[len(clauses) + 1] = frozenset(open_literals)
                open_literals = []
    if wanted != len(clauses) or open_literals:
        raise LratError("the formula hasn't as many clauses as it says")
    return clauses


def falsified_along(clauses, clause, hints, place):
    """Returns whether unit propagation along the hints finds a clause with all literals false, from
    the clause's literals set false."""
    false = set(clause)
    for hint in hints:
        if hint not in clauses:
            raise LratError(f"{place}: there is no clause {hint}")
        open_literals = clauses[hint] - false
        if not open_literals:
            return True
        (unit, *others) = open_literals
        if others or -unit in false:
            raise LratError(f"{place}: clause {hint} is neither unit nor false")
        false.add(-unit)
    return False


def check(formula: str, proof: str) -> int:
    """Checks that a text refutes a formula. Returns how many clauses it adds."""
    clauses, last, added, refuted = read_formula(formula), None, 0, False
    last = len(clauses)
    for number, line in enumerate(proof.splitlines(), 1):
        place = f"line {number}"
        deletion, addition = DELETED.fullmatch(line), ADDED.fullmatch(line)
        if deletion:
            for named in map(int, deletion[1].split()):
                if clauses.pop(named, None) is None:
                    raise LratError(f"{place}: there is no clause {named}")
        elif addition:
            name, clause, hints = (list(map(int, part.split())) for part in addition.groups())
            if name[0] <= last:
                raise LratError(f"{place}: its number isn't greater than those before")
            if any(hint < 0 for hint in hints):
                raise LratError(f"{place}: a hint by resolution")
            if not falsified_along(clauses, clause, hints, place):
                raise LratError(f"{place}: its hints end at no false clause")
            last, added, refuted = name[0], added + 1, refuted or not clause
            clauses[last] = frozenset(clause)
        else:
            raise LratError(f"{place}: no line of LRAT: {line[:100]!r}")
    if not refuted:
        raise LratError("the empty clause isn't derived")
    return added
