"""Checks finished results with a program of this machine: checksums and verdicts, certificates by
audit, runs by replay, and refutations by rup. The report files have to match the answers.

The machines that did the work are not trusted. Answers that can't be checked are counted: those
that say nothing about the interlocking, and HTML reports. Only a report's checksum and first line
are compared.
"""

from __future__ import annotations

import json
import tempfile
from pathlib import Path
from typing import Any

from irvtools.batch import html_verdicts
from irvtools.batch import report_files
from irvtools.batch import report_page
from irvtools.batch import verdicts
from irvtools.batch.batch_report import FILE, configuration_verdict, rows_of
from irvtools.batch.batch_report import sizes_of, verdict_value
from irvtools.batch.job_kinds import call_program
from irvtools.batch.planning import FORM
from irvtools.batch.program_answers import NoAnswer
from irvtools.batch.progress import Progress
from irvtools.batch.questions import Question
from irvtools.batch.solver_jobs import safe_by_line
from irvtools.batch.store import Store, checksum_of, checksum_of_file, text_of
from irvtools.calls.proved_program import is_proved
from irvtools.calls.refusal import Refused
from irvtools.calls.verdict import SAFE
from irvtools.checkers.verify_with import name_of, queries_for

AFTERWARDS = ("key", "after")           # a job's members outside its key's checksum
# Start of a good answer by kind; the last is audit's answer without a task.
GOOD_LINES = {
    "check": "clean", "verify": "safe k=", "audit": "accepted k=", "drive": "driven steps=",
    "html": f"{SAFE}. ", "export": "p cnf ", "solve": "a refutation", "rup": "refuted ",
    "verify_with": "safe k="
}
NO_CERTIFICATE = "no certificate of safety: "
HAS_WORDS = ("check", "verify", "audit", "drive", "export", "rup")


class Fault(Exception):
    """Something differs from the report. The message says what."""


def texts_of(report: dict[str, Any]) -> dict[str, bytes]:
    """Returns the texts made from a report, by file."""
    return {report_page.FILE: report_page.page(report).encode(),
            report_files.XML: report_files.junit(report).encode(),
            report_files.TABLE: report_files.table(report).encode()}


def same_bytes(path, checksum, what):
    """Returns a file's path. Raises a fault if its checksum differs."""
    try:
        found = checksum_of_file(path)
    except OSError as fault:
        raise Fault(f"{what} cannot be read: {fault.strerror}") from fault
    if found != checksum:
        raise Fault(f"{what} was changed: its checksum is {found}")
    return path


class Verifier:
    """Checks a results directory with a program."""

    def __init__(self, store, program, room, progress):
        self.store, self.program, self.room, self.progress = store, program, Path(room), progress
        self.report = json.loads((store.top / FILE).read_bytes())
        self.jobs, self.seen, self.unchecked = self.report["jobs"], {}, 0

    def faults(self):
        """Yields everything that differs from the report."""
        try:
            texts, rows = texts_of(self.report), rows_of(self.report)
        except (KeyError, TypeError, ValueError, AttributeError) as fault:
            yield f"{FILE}: it is not as it should be: {fault!r}"
            return
        for file, text in texts.items():
            yield from self.tried(
                file, lambda: same_bytes(self.store.top / file, checksum_of(text), "the file"))
        yield from self.tried("the program", self.check_program)
        for number, row in enumerate(rows):
            self.progress.step(f"checking configuration {number + 1} of {len(rows)}")
            yield from self.tried(row.name, lambda: self.check_row(row))
            for result in row.results:
                yield from self.tried(f"{row.name}: {result.question}",
                                      lambda: self.check_result(row, result))

    @staticmethod
    def tried(where, check):
        """Yields the fault that a check finds, if any."""
        try:
            check()
        except (Fault, NoAnswer, Refused, OSError) as fault:
            yield f"{where}: {fault}"
        except (KeyError, TypeError, ValueError, AttributeError) as fault:
            yield f"{where}: the report is not as it should be: {fault!r}"

    def check_program(self):
        """Checks the program's checksum. If the report calls the program proved, this machine must
        too."""
        checksum = self.report["program"]
        same_bytes(self.store.given(checksum), checksum, "the file")
        is_known = checksum_of_file(self.program) == checksum and is_proved(self.program)
        if self.report["is_proved"] and not is_known:
            raise Fault("the report says that it is proved, and this machine knows no proved "
                        "program with its checksum")

    def check_row(self, row):
        """Checks the sizes and the verdict of a configuration."""
        path = same_bytes(self.store.given(row.checksum), row.checksum, "the configuration")
        if sizes_of(path.read_bytes()) != row.sizes:
            raise Fault("the configuration has other sizes")
        keys = [result.key for result in row.results]
        if configuration_verdict(self.store, self.jobs, keys) != row.value["verdict"]:
            raise Fault(f"the verdict {row.word} is not that of the answers")

    def check_result(self, row, result):
        """Checks a question's answer, and all jobs for it."""
        kind, _, words = result.asked.partition(" ")
        if result.job["configuration"] != row.checksum or result.kind != kind:
            raise Fault("the answer is to something else")
        if kind != "audit":
            says = Question(kind, words).says
            asked = says.columns, getattr(says, "k", None)
            if asked != (result.job["columns"], result.job.get("k")):
                raise Fault("the answer is to other arguments")
        if result.answer is None:
            raise Fault(result.line)
        self.checked(result.key)

    def checked(self, key):
        """Checks a job and all that it needs, each once."""
        if key not in self.seen:
            self.seen[key] = None
            try:
                self.check_job(key, **self.jobs[key])
            except (Fault, NoAnswer) as fault:
                self.seen[key] = str(fault)
        if self.seen[key]:
            raise Fault(self.seen[key])

    def check_job(self, key, job, answer, **more):
        """Checks that an answer is its job's, and right as far as possible."""
        made_of = {name: job[name] for name in job if name not in AFTERWARDS}
        is_of_here = job["program"] == self.report["program"] and job["form"] == FORM
        if checksum_of(text_of(made_of)) != key or not is_of_here:
            raise Fault("its key is not the checksum of what it was made of")
        if answer != json.loads(self.store.answer_file({**job, "key": key}).read_bytes()):
            raise Fault("the answer was changed")
        self.check_form(job, answer)
        for need in job["needs"].values():
            self.checked(need)
        for role, file in answer["files"].items():
            same_bytes(self.file(job, key, file), file["checksum"], f"the {role}")
        whole = {**job, "key": key}
        if more["verdict"] != verdict_value(verdicts.of_job(self.store, whole, answer)):
            raise Fault("its verdict is not that of its answer")
        getattr(self, f"check_{job['kind']}", self.leave)(whole, answer)

    @staticmethod
    def check_form(job, answer):
        """Checks that a job has its columns, and that only good lines are called good."""
        kind, line = job["kind"], answer["line"]
        if kind in HAS_WORDS and job["words"][:2] != ["--columns", job["columns"]]:
            raise Fault("its arguments have other columns")
        is_left_out = kind == "audit" and line.startswith(NO_CERTIFICATE)
        if answer["is_good"] is not (None if is_left_out else line.startswith(GOOD_LINES[kind])):
            raise Fault(f"{line} is wrongly called good, or not good")

    def file(self, job, key, file):
        """Returns the path of an answer's file."""
        return self.store.directory({**job, "key": key}) / Path(file["name"]).name

    def ask(self, job, command, *words):
        """Asks this machine's program about a job's configuration. Its checksum must be right."""
        path = same_bytes(self.store.given(job["configuration"]), job["configuration"],
                          "the configuration")
        return call_program(self.program, path, self.room, command, *words)

    def expect(self, done, line, what):
        """Checks that a call answers with this line."""
        if done.line != line:
            raise Fault(f"{what} says {done.line}, and the report says {line}")

    def leave(self, _job, _answer):
        """Counts an answer that only its checksum checks."""
        self.unchecked += 1

    def again(self, job, answer, *words):
        """Repeats a call. The whole output must be the same."""
        done = self.ask(job, job["kind"], *job["words"], *words)
        self.expect(done, answer["line"], f"irv {job['kind']}")
        if checksum_of_file(done.output) != answer["files"]["report"]["checksum"]:
            raise Fault(f"irv {job['kind']} prints another output")

    def check_check(self, job, answer):
        """Asks again for the broken rules."""
        self.again(job, answer)

    def check_drive(self, job, answer):
        """Simulates the scenario again."""
        scenario = same_bytes(self.store.given(job["scenario"]), job["scenario"], "the scenario")
        self.again(job, answer, f"--run={scenario}")

    def check_html(self, job, answer):
        """Checks that the report's first line is the answer."""
        page = self.file(job, job["key"], answer["files"]["html"])
        if html_verdicts.read(page)[1:] != (answer["line"], answer["anchor"]):
            raise Fault("the HTML report has another first line than its answer")
        self.unchecked += 1

    def check_verify(self, job, answer):
        """Audits a certificate, replays a run, or asks again for a refusal."""
        columns, line = ["--columns", job["columns"]], answer["line"]
        if line.startswith("safe "):
            if "certificate" not in answer["files"]:
                raise Fault(f"the report says {line} without a certificate")
            certificate = self.file(job, job["key"], answer["files"]["certificate"])
            self.expect(self.ask(job, "audit", *columns, f"--cert={certificate}"),
                        f"accepted {line[5:]}", "irv audit")
        elif line.startswith("refused "):
            self.expect(self.ask(job, "check", *columns), line, "irv check")
        elif line.startswith("spent "):
            self.unchecked += 1
        else:
            self.replayed(job, answer, columns)

    def replayed(self, job, answer, columns):
        """Replays the run below a verdict."""
        report = self.file(job, job["key"], answer["files"]["report"]).read_bytes()
        line, _, run = report.partition(b"\n")
        (self.room / "printed.run").write_bytes(run)
        done = self.ask(job, "replay", *columns, f"--run={self.room / 'printed.run'}")
        hazard = answer["line"].partition(" hazard=")[2]
        is_shown = done.line == (f"hazard {hazard}" if hazard else "no hazard") or (
            answer["line"].startswith("not inductive") and done.line.startswith("hazard "))
        if line.decode() != answer["line"] or not is_shown:
            raise Fault(f"irv replay says {done.line} about the run below {answer['line']}")

    def check_audit(self, job, answer):
        """Checks that the answer is for verify's certificate, which verify's check covers."""
        verdict = self.jobs[job["needs"]["verify"]]
        line = verdict["answer"]["line"]
        expected = f"accepted {line[5:]}" if line.startswith("safe ") else f"{NO_CERTIFICATE}{line}"
        if verdict["job"]["configuration"] != job["configuration"] or answer["line"] != expected:
            raise Fault(f"the report says {answer['line']} instead of {expected}")

    def check_rup(self, job, answer):
        """Checks a refutation again. A missing one says nothing about the interlocking."""
        if not answer["files"]:
            if answer["is_good"]:
                raise Fault(f"the report says {answer['line']} without a refutation")
            self.unchecked += 1
            return
        need = job["needs"]["solve"]
        proof = self.file(self.jobs[need]["job"], need,
                          self.jobs[need]["answer"]["files"]["refutation"])
        self.expect(self.ask(job, "rup", *job["words"], f"--cert={proof}"), answer["line"],
                    "irv rup")
        if answer["is_good"] and answer["line"] != f"refuted {name_of(job['query'])}":
            raise Fault(f"the report says {answer['line']} about {name_of(job['query'])}")

    def check_verify_with(self, job, answer):
        """Checks that the answer follows from rup's answers for the queries."""
        if job["queries"] != [list(query) for query in queries_for(job["k"])]:
            raise Fault(f"these are not the queries of k={job['k']}")
        others = {name: self.jobs[key] for name, key in job["needs"].items()}
        line, is_good = safe_by_line(
            job, {name: (other["job"], other["answer"]) for name, other in others.items()})
        if (answer["line"], answer["is_good"]) != (line, is_good):
            raise Fault(f"{answer['line']} does not follow from its queries")


def verify(store: Store, program: Path, progress: Progress) -> tuple[list[str], int, int]:
    """Checks a directory. Returns the faults, the number of answers, and how many only their
    checksums check."""
    with tempfile.TemporaryDirectory(prefix="irv-batch-") as room:
        verifier = Verifier(store, program, room, progress)
        faults = list(verifier.faults())
    return faults, len(verifier.seen), verifier.unchecked
