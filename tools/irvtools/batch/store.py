"""The results directory. Everything in it is named by the checksum of its inputs.

No file is ever incomplete: it is written under another name and renamed at the end. A job's answer
is renamed last, and names the other files' checksums. So a stopped job has no answer. An answer and
its files are on the disk before they are renamed. This wait is omitted if bytes or checksum are
compared before each use: for configurations, scenarios, the program, and the lists of jobs and
groups.
"""

from __future__ import annotations

import hashlib
import json
import os
import tempfile
from pathlib import Path
from typing import Any

MARK = "irv-batch"               # marks a results directory
PIECE = 1 << 20
PROVED_NOTE = ".built"          # suffix of the note of a program's proof
RIGHTS = 0o666


def checksum_of(data: bytes) -> str:
    """Returns the checksum (SHA-256) of bytes."""
    return hashlib.sha256(data).hexdigest()


def checksum_of_file(path: Path) -> str:
    """Returns the checksum (SHA-256) of a file."""
    summed = hashlib.sha256()
    with open(path, "rb") as file:
        while piece := file.read(PIECE):
            summed.update(piece)
    return summed.hexdigest()


def text_of(value: Any) -> bytes:
    """Returns a value as bytes for a checksum: one text per value."""
    return json.dumps(value, sort_keys=True, separators=(",", ":")).encode()


def settle(path):
    """Waits until a file's bytes are on the disk."""
    with open(path, "rb") as file:
        os.fsync(file.fileno())


def usual_rights():
    """Returns the permissions of a new file here."""
    mask = os.umask(0)
    os.umask(mask)
    return RIGHTS & ~mask


class Store:
    """The results directory."""

    def __init__(self, top):
        self.top = Path(top)
        self.making = self.top / "making"
        self.failures = self.top / "failures"
        self.groups = self.top / "groups"

    def prepare(self):
        """Creates the fixed directories."""
        for path in (self.making, self.failures, self.groups, self.top / "jobs",
                     self.top / "given"):
            path.mkdir(parents=True, exist_ok=True)

    def put(self, path, data, is_settled=True):
        """Writes a file completely or not at all. Returns its path. Waits until it is on the disk
        if `is_settled`."""
        path.parent.mkdir(parents=True, exist_ok=True)
        handle, name = tempfile.mkstemp(dir=self.making)
        try:
            with os.fdopen(handle, "wb") as file:
                file.write(data)
                os.fchmod(handle, usual_rights())
            self.take_in(Path(name), path, is_settled)
        except BaseException:
            Path(name).unlink(missing_ok=True)
            raise
        return path

    def take_in(self, made, path, is_settled=True):
        """Renames a file that was made in this directory."""
        if is_settled:
            settle(made)
        path.parent.mkdir(parents=True, exist_ok=True)
        os.replace(made, path)

    def given(self, checksum):
        """Returns the path of a configuration, scenario or program with this checksum."""
        return self.top / "given" / checksum

    def give(self, data):
        """Keeps a configuration, scenario or program. Returns its checksum."""
        checksum = checksum_of(data)
        path = self.given(checksum)
        if not path.is_file() or checksum_of_file(path) != checksum:
            self.put(path, data, is_settled=False)
        return checksum

    def give_program(self, data, note):
        """Keeps the program, and the note of its proof unless `None`. Returns its checksum."""
        checksum = self.give(data)
        path = self.given(checksum)
        path.chmod(0o755)
        beside = path.with_name(path.name + PROVED_NOTE)
        if note is None:
            beside.unlink(missing_ok=True)
        else:
            self.put(beside, note, is_settled=False)
        return checksum

    def job_file(self, key):
        """Returns the path of a job's description."""
        return self.top / "jobs" / f"{key}.json"

    def job(self, key):
        """Returns a job's description."""
        return json.loads(self.job_file(key).read_bytes())

    def directory(self, job):
        """Returns the directory of a job's results."""
        return self.top / "results" / job["kind"] / job["key"]

    def answer_file(self, job):
        """Returns the path of a job's answer."""
        return self.directory(job) / "answer.json"

    def answer(self, job):
        """Returns a job's answer, or `None` if it is missing or a file's length differs."""
        try:
            answer = json.loads(self.answer_file(job).read_bytes())
            whole = answer["key"] == job["key"] and all(
                (self.directory(job) / file["name"]).stat().st_size == file["bytes"]
                for file in answer["files"].values())
        except (OSError, ValueError, KeyError, TypeError):
            return None
        return answer if whole else None

    def group_file(self, group):
        """Returns the path of a group's job keys."""
        return self.groups / f"{group}.json"

    def group_end(self, group):
        """Returns the path of the file that exists if all jobs of a group have answers."""
        return self.groups / f"{group}.done"

    def put_group(self, jobs):
        """Keeps a group. Returns its name."""
        keys = text_of([job["key"] for job in jobs])
        self.put(self.group_file(checksum_of(keys)), keys, is_settled=False)
        return checksum_of(keys)

    def group(self, group):
        """Returns the keys of a group's jobs."""
        return json.loads(self.group_file(group).read_bytes())

    def failure_file(self, key):
        """Returns the path of the reason for a job's missing answer."""
        return self.failures / f"{key}.json"

    def failure(self, job):
        """Returns why a job has no answer, or `None` if unknown."""
        try:
            return json.loads(self.failure_file(job["key"]).read_bytes())["why"]
        except (OSError, ValueError, KeyError, TypeError):
            return None
