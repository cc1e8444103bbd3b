"""Explains why `audit` rejects a certificate, or `rup` a refutation."""

from __future__ import annotations

import re

from irvtools.checkers.certificate import HEAD, QUERY, SAFE, STEP, queries_of
from irvtools.checkers.rup import literals_of
from irvtools.html.run_file import quoted

EMPTY_STEP = b"step 0 "


def rejected_certificate(data: bytes, number: int) -> str:
    """Returns why line `number` of a certificate is the first bad one."""
    lines = data.split(b"\n")
    if number > len(lines) or number == len(lines) and not lines[-1]:
        return f"Line {number} is missing; {wanted_after(lines[:-1])}."
    line = lines[number - 1]
    here = f"Line {number} is {cited(line)}"
    if number == len(lines):
        return f"{here}, and no line feed ends it."
    if number == 1:
        return f"{here}; it has to be “{HEAD.decode()}”."
    if number == 2:
        spent = ". A certificate of spent says nothing about the plant; tools/audit can read it" \
            if line.startswith(b"spent ") else ""
        return f"{here}; it has to be “safe K” with K from 1 to 16{spent}."
    before = lines[number - 2]
    if before == b"end":
        return f"{here}, and nothing may follow “end”."
    if is_step(line) and is_in_query(before):
        return (f"{here}. This step does not follow by its hints from the formula of {query_of(lines, number)} "
                "of this plant and the steps before it, or it names a variable or a clause that the query "
                "does not have.")
    return f"{here}; {wanted_after(lines[:number - 1])}."


def cited(line: bytes) -> str:
    """Returns a line for citation."""
    return quoted(line.decode(errors="replace"))


def is_step(line: bytes) -> bool:
    """Returns whether a line has the form of a step."""
    return STEP.fullmatch(line.decode(errors="replace")) is not None


def is_in_query(before: bytes) -> bool:
    """Returns whether a step may follow a line: the query's own, or a non-empty step."""
    return before.startswith(b"query ") or before.startswith(b"step ") and not before.startswith(EMPTY_STEP)


def query_of(lines: list[bytes], number: int) -> str:
    """Returns the query of a line."""
    queries = [line.decode() for line in lines[:number - 1] if line.startswith(b"query ")]
    return queries[-1]


BLANK = re.compile(rb"[ \t\r]+")


def wanted_after(lines: list[bytes]) -> str:
    """Returns the required next line of a certificate after these valid lines."""
    if not lines:
        return f"it has to be “{HEAD.decode()}”"
    if len(lines) == 1:
        return "it has to be “safe K” with K from 1 to 16"
    if is_in_query(lines[-1]):
        return (f"here a step of {query_of(lines, len(lines) + 1)} is needed, as “step LITERALS 0 HINTS 0”, until the "
                "step with the empty clause")
    return f"it has to be “{next_query(lines)}”"


def next_query(lines: list[bytes]) -> str:
    """Returns a certificate's next query line, or `end`."""
    asked = [f"query {kind} {n}" for kind, n in queries_of(int(SAFE.fullmatch(lines[1])[1]))]
    count = sum(QUERY.fullmatch(line.decode(errors="replace")) is not None for line in lines[2:])
    return asked[count] if count < len(asked) else "end"


def rejected_item(data: bytes, number: int, variables: int | None) -> str:
    """Returns why item `number` of a refutation over `variables` is the first bad one."""
    items = items_with_lines(data)
    if number > len(items):
        return (f"The text has {len(items)} items, and all are right, but the empty clause does not follow "
                "after them by unit propagation.")
    line, item = items[number - 1]
    here = f"Item {number}, on line {line}, is {cited(b' '.join(item))}"
    if item[-1] != b"0":
        return f"{here}, and no 0 ends it."
    literals = item[1:] if item[0] == b"d" else item
    wrong = [word for word in literals[:-1] if not is_literal(word, variables)]
    if wrong:
        most = "" if variables is None else f" with a variable from 1 to {variables}"
        return f"{here}; {cited(wrong[0])} is not a literal{most}."
    return f"{here}. This clause does not follow by unit propagation from the formula and the items before it."


def items_with_lines(data: bytes) -> list[tuple[int, list[bytes]]]:
    """Returns a refutation's items, each with its first line."""
    items, is_open = [], False
    for number, line in enumerate(data.split(b"\n"), 1):
        for word in [] if line.startswith(b"c") else filter(None, BLANK.split(line)):
            if not is_open:
                items.append((number, []))
            items[-1][1].append(word)
            is_open = word != b"0"
    return items


def is_literal(word: bytes, variables: int | None) -> bool:
    """Returns whether a word is a literal of the formula."""
    return literals_of([word, b"0"], 2 ** 62 if variables is None else variables) is not None
