"""The verdict on one configuration's answers: a word and a sentence.

The words:

- HAZARD FOUND: `replay`, `verify` or `drive` answered with a run from the initial state to a
  hazard. It overrides all others.

- SAFE WITH DEVIATIONS: proved: `check` with strict columns ended with status 5, its output was read
  to the end, and each line names C4, C5, C6 or C8.

- SAFE: `check` with strict columns answered `clean`, or `verify` answered `safe k=K`.

- REFUSED: another rule is broken.

- NOT SHOWN: everything else."""

from __future__ import annotations

import re
from collections import Counter
from dataclasses import dataclass
from typing import Iterable

HAZARD_FOUND = "HAZARD FOUND"
SAFE = "SAFE"
SAFE_WITH_DEVIATIONS = "SAFE WITH DEVIATIONS: proved"
REFUSED = "REFUSED"
NOT_SHOWN = "NOT SHOWN"
RANKING = (HAZARD_FOUND, REFUSED, NOT_SHOWN, SAFE_WITH_DEVIATIONS, SAFE)    # worst first
TONES = {HAZARD_FOUND: "bad", REFUSED: "warn", NOT_SHOWN: "warn", SAFE_WITH_DEVIATIONS: "good",
         SAFE: "good"}

DEVIATIONS_ARE_PROVED = True        # `run` has the proved clause `strict_deviations`
DEVIATIONS = ("C4", "C5", "C6", "C8")
UNPROVED = "Nothing is proved by this: the program is not known to be the proved build."

BROKEN = 5                          # the status of a refusal
REFUSAL = re.compile(r"refused ([A-Z][0-9]) \S.*")
HAZARD = re.compile(r"hazard (two|wrong) (\S+)")
UNSAFE = re.compile(r"unsafe steps=[0-9]+ hazard=(two|wrong) (\S+)")
DRIVEN = re.compile(r"hazard (two|wrong) (\S+) steps=[0-9]+")
PROVED_SAFE = re.compile(r"safe k=(?:[1-9]|1[0-6])")


@dataclass(frozen=True)
class Answered:
    """A call's answer: command, columns, exit status (`None` if it did not end by itself) and
    output. `is_whole`: the output was read to its end. `run`: the text for `replay`."""

    command: str
    columns: str
    status: int | None
    output: str
    is_whole: bool = True
    run: str = ""

    @property
    def line(self) -> str:
        """Returns the first line of the output."""
        return self.output.partition("\n")[0]

    @property
    def call(self) -> str:
        """Returns the call in words."""
        return f"irv {self.command} with {self.columns} columns"


@dataclass(frozen=True)
class Verdict:
    """A verdict: word, sentence, and whether the program is known to be proved."""

    word: str
    sentence: str
    is_proved: bool

    @property
    def tone(self) -> str:
        """Returns the colour: good, warn or bad; good only from the proved program."""
        tone = TONES[self.word]
        return "warn" if tone == "good" and not self.is_proved else tone

    @property
    def line(self) -> str:
        """Returns word and sentence, with a note if nothing is proved."""
        return f"{self.word}. {self.sentence}" + ("" if self.is_proved else f" {UNPROVED}")


def verdict(answers: Iterable[Answered], is_proved: bool) -> Verdict:
    """Returns the verdict of all answers about one configuration. `is_proved`: the program is known
    to be proved."""
    known = list(answers)
    for word, rule in ((HAZARD_FOUND, hazard_sentence), (SAFE_WITH_DEVIATIONS, deviations_sentence),
                       (SAFE, safe_sentence), (REFUSED, refused_sentence)):
        for answer in known:
            sentence = rule(answer)
            if sentence:
                return Verdict(word, sentence, is_proved)
    return Verdict(NOT_SHOWN, not_shown_sentence(known), is_proved)


def hazard_words(kind: str, name: str) -> str:
    """Returns a hazard in words."""
    return f"a collision in section {name}" if kind == "two" else f"a derailment risk on points {name}"


def hazard_sentence(answer: Answered) -> str | None:
    """Returns a hazard's sentence, or `None` if the answer reports none. A `replay` from a state
    other than the initial one reports none."""
    pattern, status = {"replay": (HAZARD, 0), "verify": (UNSAFE, 1), "drive": (DRIVEN, 1)}.get(
        answer.command, (None, None))
    match = pattern.fullmatch(answer.line) if pattern and answer.status == status else None
    if match is None or answer.command == "replay" and answer.run.split("\n")[:2] != ["run 1", "start"]:
        return None
    return (f"A run from the initial state ends in {hazard_words(*match.groups())} (irv "
            f"{answer.command}: "
            f"{answer.line}).")


def broken_rules(answer: Answered) -> Counter | None:
    """Returns how often a refusal's lines break each rule, or `None` if it is not a refusal."""
    matches = [REFUSAL.fullmatch(line) for line in answer.output.splitlines()]
    if answer.status != BROKEN or not matches or None in matches:
        return None
    return Counter(match[1] for match in matches)


def counted(rules: Counter) -> str:
    """Returns broken rules with their counts, in words."""
    return ", ".join(f"{rule} ({count}x)" if count > 1 else rule for rule, count in sorted(rules.items()))


def deviations_sentence(answer: Answered) -> str | None:
    """Returns the sentence for a table that is safe despite broken rules, or `None` if that is
    unproved."""
    rules = broken_rules(answer)
    is_read = (answer.command, answer.columns) == ("check", "strict") and answer.is_whole \
        and answer.output.endswith("\n")
    if not (DEVIATIONS_ARE_PROVED and is_read and rules and set(rules) <= set(DEVIATIONS)):
        return None
    return f"No run of any length ends in a hazard. The table deviates from {counted(rules)}."


def safe_sentence(answer: Answered) -> str | None:
    """Returns the sentence for a safe table, or `None` if the answer proves nothing."""
    is_clean = (answer.command, answer.columns, answer.status, answer.output) == (
        "check", "strict", 0, "clean\n")
    is_proved = answer.command == "verify" and answer.status == 0 and PROVED_SAFE.fullmatch(answer.line)
    if not (answer.is_whole and is_clean or is_proved):
        return None
    return f"No run of any length ends in a hazard ({answer.call}: {answer.line})."


def refused_sentence(answer: Answered) -> str | None:
    """Returns a broken rule's sentence, or `None` without one."""
    rules = broken_rules(answer)
    if rules is None:
        return None
    more = "" if answer.is_whole else ", and perhaps more"
    return f"Broken rules: {counted(rules)}{more} ({answer.call}). No statement about safety."


def not_shown_sentence(answers: list[Answered]) -> str:
    """Returns a sentence of answers that show the table neither safe nor unsafe."""
    said = [f"{answer.call}: {no_proof(answer)}" for answer in answers]
    return f"No statement about safety. {'; '.join(said) if said else 'Nothing was asked'}."


def no_proof(answer: Answered) -> str:
    """Returns an inconclusive answer in words."""
    return "no answer" if answer.status is None or not answer.line else answer.line
