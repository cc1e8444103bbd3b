"""Makes jobs of questions. A job's key is the checksum of all inputs of its answer, including the
keys of needed jobs. So equal keys mean equal work."""

from __future__ import annotations

import os
from pathlib import Path

from irvtools.batch.job_kinds import HTML_TOOL
from irvtools.batch.directory import MOST_SCENARIO, read_file
from irvtools.batch.file_names import shown
from irvtools.batch.questions import Question
from irvtools.calls.refusal import Refused
from irvtools.checkers.verify_with import queries_for
from irvtools.html.options import MOST_CHARACTERS
from irvtools.batch.store import checksum_of, checksum_of_file, text_of

FORM = 3                        # changes when a kind of job does something else


def html_tool_checksum():
    """Returns the checksum of all that makes an HTML report."""
    package = HTML_TOOL.parent / "irvtools"
    files = [
        HTML_TOOL, *(file for file in sorted(package.rglob("*.py")) if file.parent.name != "batch")
    ]
    return checksum_of("\n".join(f"{file.name} {checksum_of_file(file)}"
                                 for file in files).encode())


def read_scenarios(directory: Path, asked: dict[str, list[Question]]) -> dict[str, bytes]:
    """Returns the bytes of the scenarios in questions, by name. They are in the directory too."""
    read = {}
    for name in sorted({question.says.run for questions in asked.values() for question in questions
                        if question.kind == "drive"}):
        if os.path.isabs(name) or ".." in name.split("/"):
            raise Refused(f"drive: {shown(name)} leads out of the directory")
        read[name] = read_file(directory, name, MOST_SCENARIO)
    return read


def title_of(name: str) -> str:
    """Returns the title of a configuration's HTML report: its name, or a long name's end."""
    title = "".join(one if one.isprintable() else f"\\u{ord(one):04x}" for one in shown(name))
    return title if len(title) <= MOST_CHARACTERS else "…" + title[1 - MOST_CHARACTERS:]


class Planner:
    """Makes the jobs of a directory, for the program with this checksum, proved or not, and
    scenarios with these."""

    def __init__(self, store, program, is_proved, scenarios):
        self.store, self.scenarios = store, scenarios
        self.program, self.is_proved = program, is_proved
        self.html_tool = html_tool_checksum()
        self.jobs = {}

    def job(self, kind, needs=None, **what):
        """Adds a job and returns its key. Equal jobs are one."""
        value = {"form": FORM, "kind": kind, "program": self.program, "needs": needs or {}, **what}
        key = checksum_of(text_of(value))
        value["after"] = [self.answer_path(other) for other in value["needs"].values()]
        self.jobs[key] = {**value, "key": key}
        return key

    def answer_path(self, key):
        """Returns the path of a job's answer in the results."""
        return os.path.relpath(self.store.answer_file(self.jobs[key]), self.store.top)

    def asked(self, name, configuration, questions):
        """Adds the jobs for a configuration's questions, by its name and checksum. Yields each
        question in words with its job's key."""
        verified = {}
        for question in questions:
            if question.kind == "verify":
                verified[question.words] = self.plain(configuration, question)
        for question in questions:
            if question.kind == "audit":
                yield from ((f"audit of verify {words}".strip(), self.audit(configuration, key))
                            for words, key in verified.items())
            elif question.kind == "html":
                yield f"html {question.words}".strip(), self.html(name, configuration, question)
            else:
                make = getattr(self, question.kind, self.plain)
                yield f"{question.kind} {question.words}".strip(), make(configuration, question)

    def plain(self, configuration, question):
        """Adds a job of check or verify."""
        words = [word for name, value in sorted(vars(question.says).items())
                 for word in (f"--{name}", str(value))]
        return self.job(question.kind, configuration=configuration, words=words,
                        columns=question.says.columns)

    def audit(self, configuration, verified):
        """Adds the audit of a certificate."""
        columns = self.jobs[verified]["columns"]
        return self.job("audit", {"verify": verified}, configuration=configuration, columns=columns,
                        words=["--columns", columns])

    def html(self, name, configuration, question):
        """Adds an HTML report with the configuration's name, and whether the program is known to be
        proved."""
        says = question.says
        words = ["--columns", says.columns, "--depth", str(says.depth),
                 "--conflicts", str(says.conflicts), "--verify-seconds", str(says.verify_seconds),
                 "--search-seconds", str(says.search_seconds), "--no-cert",
                 f"--title={title_of(name)}"]
        return self.job("html", configuration=configuration, words=words, columns=says.columns,
                        tool=self.html_tool, is_proved=self.is_proved)

    def drive(self, configuration, question):
        """Adds the simulation of a scenario."""
        columns = question.says.columns
        return self.job("drive", configuration=configuration, columns=columns,
                        words=["--columns", columns], scenario=self.scenarios[question.says.run])

    def verify_with(self, configuration, question):
        """Adds jobs for each query on which safety at k depends: formula, refutation, and rup."""
        says, needs, queries = question.says, {}, queries_for(question.says.k)
        for kind, at in queries:
            about = {"configuration": configuration, "columns": says.columns, "query": [kind, at],
                     "words": ["--columns", says.columns, "--query", kind, "--number", str(at)]}
            exported = self.job("export", **about)
            solved = self.job("solve", {"export": exported}, solver=says.solver,
                              seconds=says.seconds, **about)
            needs[f"{kind} {at}"] = self.job("rup", {"solve": solved}, **about)
        return self.job("verify_with", needs, configuration=configuration, columns=says.columns,
                        k=says.k, queries=[list(query) for query in queries], words=[])
