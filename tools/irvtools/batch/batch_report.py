"""The report as a value: configurations, questions, answers and verdicts. Only this value makes the
page and the pipeline's files, so they can be made again."""

from __future__ import annotations

import json
import math
from typing import Any

from irvtools.batch import verdicts
from irvtools.batch.directory import MOST_BYTES
from irvtools.batch.file_names import shown
from irvtools.batch.store import Store
from irvtools.calls.verdict import HAZARD_FOUND, NOT_SHOWN, RANKING, REFUSED
from irvtools.calls.verdict import SAFE, SAFE_WITH_DEVIATIONS
from irvtools.paths import TOP

FILE = "report.json"
# Outcomes, worst first. An answer about safety that isn't good has its verdict's word.
CONTRADICTION, NO_ANSWER, LEFT_OUT, GOOD = "contradiction", "no answer", "left out", "good"
OUTCOMES = (CONTRADICTION, HAZARD_FOUND, NO_ANSWER, REFUSED, NOT_SHOWN, SAFE_WITH_DEVIATIONS,
            LEFT_OUT, GOOD)
NOT_BEGUN = "the job was not begun"


def sizes_of(data: bytes) -> dict[str, int] | None:
    """Returns a configuration's numbers of sections, points and routes, or `None` if unreadable."""
    try:
        value = json.loads(data) if len(data) <= MOST_BYTES else None
        kinds = [section["kind"] for section in value["sections"]]
        return {
            "sections": len(kinds), "points": kinds.count("point"), "routes": len(value["routes"])
        }
    except (ValueError, TypeError, KeyError, RecursionError):
        return None


def why_failed(store, jobs, key):
    """Returns why a job has no answer: the reason of the first needed job without an answer, or its
    own."""
    for need in jobs[key]["needs"].values():
        if store.answer(jobs[need]) is None:
            return why_failed(store, jobs, need)
    return store.failure(jobs[key]) or NOT_BEGUN


def job_value(store, jobs, key):
    """Returns a job with its answer, or why it is missing, and with its verdict, if any."""
    answer = store.answer(jobs[key])
    value = {
        "job": jobs[key], "answer": answer,
        "verdict": verdict_value(verdicts.of_job(store, jobs[key], answer))
    }
    return value if answer else {**value, "failure": why_failed(store, jobs, key)}


def verdict_value(found: tuple[str, str] | None) -> dict[str, str] | None:
    """Returns a word and a sentence as a value, or `None`."""
    return found and {"word": found[0], "sentence": found[1]}


def make(store: Store, about: dict[str, Any], configurations: dict[str, tuple[str, bytes]],
         asked: dict[str, list[tuple[str, str]]],
         jobs: dict[str, dict[str, Any]]) -> dict[str, Any]:
    """Returns the report's value."""
    values = {key: job_value(store, jobs, key) for key in jobs}
    return {
        **about, "version": (TOP / "VERSION").read_text(encoding="utf-8").strip(), "jobs": values,
        "configurations": [{
            "name": name, "checksum": checksum, "sizes": sizes_of(data),
            "verdict": configuration_verdict(store, values, [key for _, key in asked[name]]),
            "questions": [{"question": question, "job": key} for question, key in asked[name]]
        } for name, (checksum, data) in configurations.items()]
    }


def configuration_verdict(store: Store, values: dict[str, dict[str, Any]],
                          keys: list[str]) -> dict[str, str]:
    """Returns a configuration's verdict as a value, from these jobs."""
    return verdict_value(verdicts.of_configuration(
        store, [(values[key]["job"], values[key]["answer"]) for key in keys]))


class Result:
    """The result of a question about a configuration."""

    def __init__(self, report, question, key):
        value = report["jobs"][key]
        self.asked, self.question, self.key = question, shown(question), key
        self.job, self.answer, self.failure = value["job"], value["answer"], value.get("failure")
        self.word = value["verdict"] and value["verdict"]["word"]
        self.kind = self.job["kind"]
        self.below = [report["jobs"][each] for each in self.keys_below(report, key)]

    def keys_below(self, report, key):
        """Returns the keys of the jobs only for this question, its own first."""
        found = [key]
        if self.kind == "verify_with":
            for need in report["jobs"][key]["job"]["needs"].values():
                while need:
                    found.append(need)
                    need = next(iter(report["jobs"][need]["job"]["needs"].values()), None)
        return found

    @property
    def line(self):
        """Returns the line of the answer, or why there is none."""
        if self.answer is None:
            return f"no answer: {shown(self.failure)}"
        return shown(self.answer["line"])

    @property
    def outcome(self):
        """Returns the outcome, one of OUTCOMES."""
        if self.answer is None:
            return NO_ANSWER
        if self.answer["is_good"] is None:
            return LEFT_OUT
        if self.answer["is_good"] is True:
            return GOOD
        return CONTRADICTION if self.kind == "audit" else self.word

    @property
    def says_safe(self):
        """Returns whether the answer says that the interlocking is safe."""
        return self.word in (SAFE,
                             SAFE_WITH_DEVIATIONS) or self.kind == "audit" and self.outcome == GOOD

    def measure(self, what, fold=math.fsum):
        """Returns a measure of this question's work. A sum is exact until rounded, so job order
        doesn't matter."""
        return fold([each["answer"][what] for each in self.below if each["answer"]] or [0])

    def machines(self):
        """Returns the machines that did the work."""
        return sorted({each["answer"]["machine"] for each in self.below if each["answer"]})

    def solvers(self):
        """Returns the solvers used."""
        return sorted({each["answer"]["solver"] for each in self.below
                       if each["answer"] and "solver" in each["answer"]})

    def files(self):
        """Returns role, path in the results directory and checksum of each answer file."""
        place = f"results/{self.kind}/{self.key}"
        files = self.answer["files"] if self.answer else {}
        return [(role, f"{place}/{file['name']}", file["checksum"])
                for role, file in sorted(files.items())]


class Row:
    """A configuration with its verdict and the results of all its questions."""

    def __init__(self, report, configuration):
        self.name, self.checksum = shown(configuration["name"]), configuration["checksum"]
        self.value, self.sizes = configuration, configuration["sizes"]
        self.word = configuration["verdict"]["word"]
        self.own_sentence = shown(configuration["verdict"]["sentence"])
        self.results = [Result(report, each["question"], each["job"])
                        for each in configuration["questions"]]
        tone = verdicts.tone(self.word, report["is_proved"])
        self.tone = "bad" if self.is_contradiction else tone

    @property
    def is_contradiction(self):
        """Returns whether one answer says safe and another has a hazard, or verify's certificate is
        rejected."""
        outcomes = [each.outcome for each in self.results]
        is_both = self.word == HAZARD_FOUND and any(each.says_safe for each in self.results)
        return is_both or CONTRADICTION in outcomes

    @property
    def verdict(self):
        """Returns the verdict's word. A contradiction without a hazard shows nothing."""
        return NOT_SHOWN if self.is_contradiction and self.word != HAZARD_FOUND else self.word

    @property
    def sentence(self):
        """Returns the verdict's sentence."""
        if not self.is_contradiction:
            return self.own_sentence
        said = "; ".join(f"{each.question}: {each.line}" for each in self.results)
        own = self.own_sentence + " " if self.word == HAZARD_FOUND else ""
        return f"{own}Contradiction: the program, a machine or this directory is wrong. {said}."

    @property
    def is_good(self):
        """Returns whether every answer is good or was left out."""
        outcomes = {each.outcome for each in self.results}
        return outcomes <= {GOOD, LEFT_OUT} and GOOD in outcomes and not self.is_contradiction

    @property
    def missing(self):
        """Returns the questions without an answer."""
        return [each for each in self.results if each.outcome == NO_ANSWER]

    @property
    def rank(self):
        """Returns the row's rank, smallest first: hazards, contradictions, then the other words."""
        place = RANKING.index(self.verdict)
        is_late = not self.is_contradiction
        outcomes = [OUTCOMES.index(each.outcome) for each in self.results]
        return (place if place == 0 else 1 if self.is_contradiction else place + 1, is_late,
                min(outcomes, default=len(OUTCOMES)))


def rows_of(report: dict[str, Any]) -> list[Row]:
    """Returns the rows, worst first."""
    rows = [Row(report, each) for each in report["configurations"]]
    return sorted(rows, key=lambda row: row.rank)


def verdict_counts(rows: list[Row]) -> str:
    """Returns in words the count of each verdict, in ranking order."""
    words = [row.verdict for row in rows]
    return ", ".join(f"{words.count(word)} {word}" for word in RANKING if word in words)
