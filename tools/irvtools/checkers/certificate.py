"""Checks certificates by the rules of docs/reference/formats.md only, over formulas from elsewhere.

It needs no search: each step names the clauses from which it follows. `audited` reads a certificate
line by line and names the first bad line. `check` says what is wrong with a certificate, also a
spent one.
"""

from __future__ import annotations

import re
from typing import Callable

from irvtools.checkers import dimacs

MOST_VARIABLE = 2 ** 62
MOST_HINT = 2 ** 64 - 1
TOLD = re.compile(r"(safe ([1-9]|1[0-6])|spent (0|[1-9][0-9]*))")
QUERY = re.compile(r"query (hazard|breach|step) (0|[1-9][0-9]*)")
STEP = re.compile(r"step ((?:-?[1-9][0-9]* )*)0 ((?:[1-9][0-9]* )*)0")


HEAD = b"irv certificate 3"
SAFE = re.compile(rb"safe ([1-9]|1[0-6])")


class BadLine(Exception):
    """A line that is wrong at its place."""


class CertificateError(Exception):
    """A text that is not a certificate, or not one of these formulas."""


def need(test, message):
    """Raises an error with `message` if `test` is false."""
    if not test:
        raise CertificateError(message)


def read_step(line: str, number: int) -> tuple[tuple[int, ...], list[int]]:
    """Returns the clause and the hints of a step's line."""
    match = STEP.fullmatch(line)
    need(match, f"line {number}: neither a step nor what may follow it: {line[:100]!r}")
    clause = tuple(int(word) for word in match[1].split())
    hints = [int(word) for word in match[2].split()]
    need(all(abs(literal) <= MOST_VARIABLE for literal in clause), f"line {number}: a variable")
    need(all(hint <= MOST_HINT for hint in hints), f"line {number}: a hint")
    return clause, hints


def read(
        text: bytes
) -> tuple[str, str, list[tuple[str, int, list[tuple[tuple[int, ...], list[int]]]]]]:
    """Returns `safe` or `spent` with its number, and the queries with their steps."""
    try:
        lines = dimacs.lines_of(text)
    except dimacs.DimacsError as fault:
        raise CertificateError(str(fault)) from fault
    need(len(lines) >= 4, "fewer than four lines")
    need(lines[0] == "irv certificate 3", "line 1: no head of a certificate")
    told = TOLD.fullmatch(lines[1])
    need(told, "line 2: neither safe nor spent")
    need(lines[-1] == "end", f"line {len(lines)}: no end")
    queries = []
    for number, line in enumerate(lines[2:-1], 3):
        query = QUERY.fullmatch(line)
        if query:
            queries.append((query[1], int(query[2]), []))
        else:
            need(queries, f"line {number}: a step before the first query")
            queries[-1][2].append(read_step(line, number))
    return (*told[1].split(), queries)


def follows(clauses, clause, hints):
    """Returns whether `clause` follows by its hints. First its literals are set false. Each hint
    but the last names a clause with one unset literal, which becomes true, and all others false.
    The last hint's clause has only false literals."""
    true = {-literal for literal in clause}
    for place, hint in enumerate(hints):
        if not 1 <= hint <= len(clauses):
            return False
        unset = [literal for literal in clauses[hint - 1] if -literal not in true]
        if place == len(hints) - 1:
            return not unset
        if len(unset) != 1 or unset[0] in true:
            return False
        true.add(unset[0])
    return False


def is_fresh(clauses, clause):
    """Returns whether some literal of `clause` stays unset, and no clause is false, after all
    others are set false and propagated."""
    for literal in clause:
        true = dimacs.propagated(clauses, [-other for other in clause if other != literal])
        if true is not None and literal not in true and -literal not in true:
            return True
    return False


def checked_steps(name: str, formula: tuple[int, list[tuple[int, ...]]],
                  steps: list[tuple[tuple[int, ...], list[int]]],
                  want_fresh: bool) -> list[tuple[int, ...]]:
    """Returns the clauses of a formula and of all steps; each step has to follow. An empty clause
    comes last."""
    variables, clauses = formula[0], list(formula[1])
    for number, (clause, hints) in enumerate(steps, 1):
        place = f"{name}, step {number}"
        numbers = [abs(literal) for literal in clause]
        need(all(variable <= variables for variable in numbers), f"{place}: no such variable")
        need(len(set(numbers)) == len(numbers), f"{place}: a variable stands twice")
        need(follows(clauses, clause, hints), f"{place}: doesn't follow by its hints")
        need(clause or number == len(steps), f"{place}: the empty clause isn't the last")
        need(not (want_fresh and clause) or is_fresh(clauses, clause), f"{place}: isn't fresh")
        clauses.append(clause)
    return clauses


def queries_of(most: int) -> list[tuple[str, int]]:
    """Returns the queries on which a safe certificate with this number depends, in order."""
    bases = [(kind, number) for number in range(most + 1) for kind in ("hazard", "breach")]
    return [*bases, ("step", most)]


def taken(line, variables, clauses, is_known):
    """Returns the clause of a step's line, which follows from earlier clauses or is known to."""
    try:
        clause, hints = read_step(line.decode("ascii"), 0)
    except (UnicodeDecodeError, CertificateError) as fault:
        raise BadLine from fault
    numbers = [abs(literal) for literal in clause]
    if any(variable > variables for variable in numbers) or len(set(numbers)) < len(numbers):
        raise BadLine
    if not is_known and not follows(clauses, clause, hints):
        raise BadLine
    return clause


def stand(line, wanted):
    """Rejects a line other than the wanted one."""
    if line != wanted:
        raise BadLine


def lines_taken(formula_of, known):
    """Takes the lines of a certificate, sent one by one. Raises BadLine at the first bad one.
    Yields the certificate's number at the end. The steps in the first `known` lines are known to
    follow."""
    stand((yield None), HEAD)
    told = SAFE.fullmatch((yield None))
    if not told:
        raise BadLine
    at = 2
    for kind, number in queries_of(int(told[1])):
        stand((yield None), f"query {kind} {number}".encode())
        at += 1
        variables, clauses = formula_of(kind, number)
        clauses, clause = list(clauses), None
        while clause != ():
            line, at = (yield None), at + 1
            clause = taken(line, variables, clauses, at <= known)
            clauses.append(clause)
    stand((yield None), b"end")
    yield int(told[1])
    raise BadLine


def audited(text: bytes, formula_of: Callable[[str, int], tuple[int, list[tuple[int, ...]]]],
            known: int = 0) -> str:
    """Returns an audit's answer to these bytes: `accepted k=K`, or `rejected line N` for the first
    bad line. A missing line, or one without a line feed, is bad too. If `known` lines were audited
    before, at the beginning of another text, their steps are not checked again."""
    *lines, rest = text.split(b"\n")
    reading = lines_taken(formula_of, known)
    told = next(reading)
    for number, line in enumerate(lines, 1):
        try:
            told = reading.send(line)
        except BadLine:
            return f"rejected line {number}"
    if told is None or rest:
        return f"rejected line {len(lines) + 1}"
    return f"accepted k={told}"


def is_refuted(steps: list[tuple[tuple[int, ...], list[int]]]) -> bool:
    """Returns whether the last step has the empty clause."""
    return bool(steps) and steps[-1][0] == ()


def check_safe(most, queries, formula_of):
    """Checks that exactly the verdict's queries are refuted."""
    need([query[:2] for query in queries] == queries_of(most),
         "not the queries that the verdict rests on")
    for kind, number, steps in queries:
        name = f"{kind} {number}"
        checked_steps(name, formula_of(kind, number), steps, False)
        need(is_refuted(steps), f"{name}: isn't refuted")


def next_query(query, breach_found):
    """Returns the next query, after one that didn't end the series."""
    kind, number = query
    if breach_found:
        return "hazard", number + 1
    if kind == "hazard":
        return "breach", number
    if kind == "breach" and number > 0:
        return "step", number
    return "hazard", number + 1


def check_spent(count, queries, formula_of):
    """Checks that the queries are in order, with the counted steps, and the last is given up."""
    wanted, breach_found = ("hazard", 0), False
    for place, (kind, number, steps) in enumerate(queries):
        name = f"{kind} {number}"
        need((kind, number) == wanted, f"{name}: not the next query")
        clauses = checked_steps(name, formula_of(kind, number), steps, True)
        if place == len(queries) - 1:
            need(not is_refuted(steps), f"{name}: is refuted, and was given up")
            need(dimacs.propagated(clauses, []) is not None, f"{name}: propagation refutes it")
        else:
            need(kind != "hazard" or is_refuted(steps), f"{name}: isn't refuted")
            need(kind != "step" or not is_refuted(steps), f"{name}: is refuted")
            breach_found = breach_found or (kind == "breach" and not is_refuted(steps))
        wanted = next_query(wanted, breach_found)
    steps_counted = sum(1 for _, _, steps in queries for clause, _ in steps if clause)
    need(steps_counted == count, f"{steps_counted} steps with a literal, and {count} are told")


def check(text: bytes,
          formula_of: Callable[[str, int], tuple[int, list[tuple[int, ...]]]]) -> str:
    """Checks a certificate over the formulas of its queries. Returns its second line."""
    told, number, queries = read(text)
    (check_safe if told == "safe" else check_spent)(int(number), queries, formula_of)
    answer = audited(text, formula_of)
    need(told == "spent" or answer == f"accepted k={number}", f"read line by line: {answer}")
    return f"{told} {number}"
