"""Report values made from hand-written answers, as a batch would make them."""

from __future__ import annotations

import tempfile
from pathlib import Path

from irvtools.batch import batch_report

STRICT = "strict"
OUTPUT = "output.txt"


class Answers:
    """A store with hand-written answers: the part that `batch_report` needs."""

    def __init__(self, room):
        self.room, self.jobs, self.answers = Path(room), {}, {}

    def add(self, kind, line, status=0, columns=STRICT, is_good=True, more=""):
        """Adds an answer and returns its job's key. The output is `line` and `more`; `None` means
        that it is missing."""
        key = f"{len(self.jobs):064x}"
        self.jobs[key] = {
            "kind": kind, "key": key, "columns": columns, "needs": {}, "configuration": "c"
        }
        if line is None:
            self.answers[key] = None
            return key
        job_directory = self.room / key
        job_directory.mkdir()
        (job_directory / OUTPUT).write_text(f"{line}\n{more}", encoding="utf-8")
        role = "html" if kind == "html" else "report"
        self.answers[key] = {
            "line": line, "status": status, "is_good": is_good, "machine": "m", "seconds": 1.0,
            "processor_seconds": 1.0, "memory_kib": 20480, "anchor": "hazard",
            "files": {role: {"name": OUTPUT, "checksum": "0" * 64, "bytes": 1}}
        }
        return key

    def directory(self, job):
        """Returns the directory of a job's results."""
        return self.room / job["key"]

    def answer(self, job):
        """Returns a job's answer."""
        return self.answers[job["key"]]

    @staticmethod
    def failure(_job):
        """Returns why a job has no answer."""
        return "it was killed"


def made_report(configurations, is_proved=True):
    """Returns the report value of `configurations`, each with `Answers.add` arguments for its
    answers."""
    with tempfile.TemporaryDirectory(prefix="irv-batch-test-") as room:
        store, asked = Answers(room), {}
        for name, answers in configurations.items():
            asked[name] = [(f"{answer[0]}{number or ''}", store.add(*answer))
                           for number, answer in enumerate(answers)]
        about = {"directory": "d", "program": "p", "engine": "e", "is_proved": is_proved}
        given = {name: (f"sum of {name}", b"{}") for name in configurations}
        return batch_report.make(store, about, given, asked, store.jobs)
