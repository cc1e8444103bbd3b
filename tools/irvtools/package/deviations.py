"""A table's deviations: each broken rule in sentences, and whether safety depends on it. `irv
check` answers the broken rules and places; the sentences are the HTML report's."""

from __future__ import annotations

from dataclasses import dataclass

from irvtools.model.plant import Plant
from irvtools.rules import broken_rules, schema_rules


@dataclass
class Deviation:
    """A broken rule: the line of check, sentences, whether safety depends on it, and why."""
    line: str
    sentences: list[str]
    is_resting: bool
    safety: str


def deviations_of(given: bytes, lines: list[str]) -> list[Deviation]:
    """Returns the meaning of check's lines for a configuration."""
    if not lines:
        return []
    if lines[0].startswith("refused F"):
        _, rule, place = lines[0].split(" ")
        return [Deviation(lines[0], list(schema_rules.faults(rule, place, given)), True,
                          "A configuration with a wrong form is not read: nothing else is asked "
                          "about it, and there is no verdict.")]
    value, unread = schema_rules.read(given)
    plant = None if unread is not None else Plant(value)
    return [of_line(plant, line) for line in lines]


def of_line(plant: Plant | None, line: str) -> Deviation:
    """Returns the meaning of one line."""
    rule, places = broken_rules.read_line(line)
    if plant is None:
        return Deviation(line, [], True, "The tools in Python cannot read what irv reads. The rule "
                         "is in docs/reference/model.md.")
    is_resting = rule[0] != "C" or broken_rules.rests(plant, rule, places)
    return Deviation(line, list(broken_rules.sentences(plant, rule, places)), is_resting,
                     broken_rules.safety(plant, rule, places))
