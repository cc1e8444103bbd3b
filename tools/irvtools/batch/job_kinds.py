"""Does the jobs that call the program, and HTML reports; solver_jobs.py does those of other
solvers. Each answer is a value: `line` to show, `is_good`, measures, and `files` in the job's room
by role. `is_good` is `None` if there was nothing to do."""

from __future__ import annotations

import os
import sys
from pathlib import Path
from typing import Any

from irvtools.batch import html_verdicts
from irvtools.batch.measuring import Called
from irvtools.batch.program_answers import NoAnswer, why_no_answer
from irvtools.batch.store import Store, checksum_of_file
from irvtools.calls.verdict import SAFE
from irvtools.paths import TOP

HTML_TOOL = TOP / "tools/html"
# Length and times of each file when its checksum was last right.
SEEN = {}
NOTHING_TOOK = {"seconds": 0.0, "processor_seconds": 0.0, "memory_kib": 0}


def checked(store, checksum):
    """Returns the path of a configuration, a scenario or the program, with a correct checksum. It
    is computed again only if the file has changed."""
    path = store.given(checksum)
    about = os.stat(path)
    mark = about.st_dev, about.st_ino, about.st_size, about.st_mtime_ns, about.st_ctime_ns
    if SEEN.get(path) != mark and checksum_of_file(path) != checksum:
        raise NoAnswer(f"{path} has another checksum than its name says")
    SEEN[path] = mark
    return path


def call_program(program: Path, configuration: Path, room: Path, command: str,
                 *words: str) -> Called:
    """Calls a command with a configuration. Raises NoAnswer if no valid answer comes."""
    done = Called([str(program), command, *words], configuration, room)
    why = why_no_answer(command, done.status, done.line, done.complaint)
    if why:
        raise NoAnswer(why)
    return done


def ask(store: Store, job: dict[str, Any], room: Path, command: str, *words: str) -> Called:
    """Asks the program about the job's configuration. Returns the call."""
    return call_program(checked(store, job["program"]), checked(store, job["configuration"]), room,
                        command, *words)


def answered(done: Called, is_good: bool, **files: Path) -> dict[str, Any]:
    """Returns a call's answer, with its output as a file."""
    return {"line": done.line, "status": done.status, "is_good": is_good, **done.measures(),
            "files": {"report": done.output, **files}}


def without_call(line: str, is_good: bool | None) -> dict[str, Any]:
    """Returns an answer that needed no call."""
    return {"line": line, "status": None, "is_good": is_good, **NOTHING_TOOK, "files": {}}


def file_of(store: Store, job: dict[str, Any], role: str) -> tuple[Path | None, dict[str, Any]]:
    """Returns the path of another job's file that this one needs, and that job's answer. The
    checksum is right. The path is `None` if the answer has no such file."""
    other = store.job(job["needs"][role.partition(" ")[0]])
    answer = store.answer(other)
    if answer is None:
        raise NoAnswer(f"the answer to {other['kind']} does not exist any more")
    file = answer["files"].get(role.partition(" ")[2])
    if file is None:
        return None, answer
    path = store.directory(other) / file["name"]
    if checksum_of_file(path) != file["checksum"]:
        raise NoAnswer(f"{path} has another checksum than its answer says")
    return path, answer


def do_check(store, job, room):
    """Asks for the rules that the configuration breaks."""
    done = ask(store, job, room, "check", *job["words"])
    return answered(done, done.status == 0)


def do_verify(store, job, room):
    """Asks for the verdict. The certificate is kept only if it is safe: the clauses of a spent
    search say nothing about the interlocking, and may be very long."""
    certificate = room / "certificate.cert"
    done = ask(store, job, room, "verify", *job["words"], f"--cert={certificate}")
    files = {"certificate": certificate} if done.status == 0 else {}
    if files and not certificate.is_file():
        raise NoAnswer("irv verify wrote no certificate")
    return answered(done, done.status == 0, **files)


def do_audit(store, job, room):
    """Checks verify's certificate with audit."""
    path, verdict = file_of(store, job, "verify certificate")
    if path is None or verdict["status"] != 0:
        return without_call(f"no certificate of safety: {verdict['line']}", None)
    done = ask(store, job, room, "audit", *job["words"], f"--cert={path}")
    return answered(done, done.status == 0 and done.line == f"accepted {verdict['line'][5:]}")


def do_drive(store, job, room):
    """Simulates the scenario."""
    scenario = checked(store, job["scenario"])
    done = ask(store, job, room, "drive", *job["words"], f"--run={scenario}")
    return answered(done, done.status == 0)


def do_html(store, job, room):
    """Writes the HTML report. Its verdict is the line."""
    page = room / "report.html"
    done = Called([sys.executable, str(HTML_TOOL), str(page), "--program",
                   str(checked(store, job["program"])), *job["words"]],
                  checked(store, job["configuration"]), room)
    if done.status != 0 or not page.is_file():
        raise NoAnswer(f"no HTML report, with status {done.status}: {done.complaint}")
    word, line, anchor = html_verdicts.read(page)
    answer = answered(done, word == SAFE, html=page)
    del answer["files"]["report"]
    return {**answer, "line": line, "anchor": anchor}


DOES = {
    "check": do_check, "verify": do_verify, "audit": do_audit, "drive": do_drive, "html": do_html
}
