"""The verdict from all answers about a configuration: its word and its sentence.

`irvtools.calls.verdict` gives the verdict of the program's own answers. An HTML report has its
verdict at the top. A verdict of verify_with depends on `irv rup` and on the script that asked all
queries. The configuration gets the strongest verdict, in the order of `STRENGTH`."""

from __future__ import annotations

from typing import Any, Iterable

from irvtools.batch.html_verdicts import word_and_sentence
from irvtools.batch.store import Store
from irvtools.calls import verdict
from irvtools.calls.verdict import Answered, Verdict

# Strongest word first, for answers that disagree.
STRENGTH = (verdict.HAZARD_FOUND, verdict.SAFE_WITH_DEVIATIONS, verdict.SAFE, verdict.REFUSED,
            verdict.NOT_SHOWN)
OF_PROGRAM = ("check", "verify", "drive")
NAMES = {"html": "--html",
         "verify_with": "--verify-with"}  # calls that aren't commands of the program
REFUSED_STATUS = 5


def output_of(store, job, answer) -> str:
    """Returns the part of a call's output that a verdict needs: a whole refusal, otherwise the
    first line."""
    if answer["status"] != REFUSED_STATUS:
        return f"{answer['line']}\n"
    file = store.directory(job) / answer["files"]["report"]["name"]
    return file.read_text(encoding="utf-8", errors="replace")


def answered(store, job, answer) -> Answered:
    """Returns an answer of the program in a verdict's form. `answer` is `None` if missing."""
    if answer is None:
        return Answered(NAMES.get(job["kind"], job["kind"]), job["columns"], None, "")
    return Answered(job["kind"], job["columns"], answer["status"], output_of(store, job, answer))


def of_job(store: Store, job: dict[str, Any],
           answer: dict[str, Any] | None) -> tuple[str, str] | None:
    """Returns one answer's word and sentence, or `None` if its kind has no verdict."""
    if answer is None:
        return None
    if job["kind"] == "html":
        return word_and_sentence(answer["line"])
    if job["kind"] == "verify_with":
        return of_refutations(job, answer)
    if job["kind"] in OF_PROGRAM:
        found = verdict.verdict([answered(store, job, answer)], True)
        return found.word, found.sentence
    return None


def of_refutations(job, answer) -> tuple[str, str]:
    """Returns the word and sentence of verify_with."""
    call = f"verify_with with {job['columns']} columns: {answer['line']}"
    if answer["is_good"]:
        return verdict.SAFE, (
            f"No run of any length ends in a hazard ({call}; irv rup checked the refutation of "
            "each query, and a tested script asked for all of them).")
    if answer["line"].startswith("refused "):
        return verdict.REFUSED, f"A rule is broken ({call}). No statement about safety."
    return verdict.NOT_SHOWN, f"No statement about safety. {call}."


def of_configuration(
        store: Store,
        jobs: list[tuple[dict[str, Any], dict[str, Any] | None]]) -> tuple[str, str]:
    """Returns a configuration's word and sentence, from pairs of jobs and answers."""
    of_program = [answered(store, job, answer) for job, answer in jobs
                  if job["kind"] in OF_PROGRAM or answer is None and job["kind"] in NAMES]
    others = [of_job(store, job, answer) for job, answer in jobs if job["kind"] not in OF_PROGRAM]
    found = [pair for pair in others if pair is not None]
    if of_program or not found:
        first = verdict.verdict(of_program, True)
        found.insert(0, (first.word, first.sentence))
    return strongest(found)


def strongest(found: Iterable[tuple[str, str]]) -> tuple[str, str]:
    """Returns the strongest word with its sentence; the first of equal ones."""
    return min(found, key=lambda pair: STRENGTH.index(pair[0]))


def tone(word: str, is_proved: bool) -> str:
    """Returns a word's colour: good, warn or bad."""
    return Verdict(word, "", is_proved).tone
