"""Does one job in this process, and keeps its answer. The answer is renamed last, when all its
files are on the disk. Until then failures/KEY.json says why it is missing."""

from __future__ import annotations

import contextlib
import importlib
import sys
import tempfile
from pathlib import Path
from typing import Any

from irvtools.batch.measuring import machine
from irvtools.batch.store import Store, checksum_of_file, text_of
from irvtools.batch.program_answers import NoAnswer

OF_PROGRAM = ("check", "verify", "audit", "drive", "html")
NO_WORD = "the job ended without a message, which happens if it is killed"


def keep(store, job, answer):
    """Keeps a job's files, then its answer. An earlier worker's answer stays."""
    files = {}
    for role, path in answer.pop("files").items():
        length, checksum = path.stat().st_size, checksum_of_file(path)
        name = checksum[:16] + path.suffix
        store.take_in(path, store.directory(job) / name)
        files[role] = {"name": name, "checksum": checksum, "bytes": length}
    if store.answer(job) is None:
        store.put(store.answer_file(job),
                  text_of({"key": job["key"], "machine": machine(), "files": files, **answer}))


def note_failure(store, key, why):
    """Records why there is no answer, or reports that this can't be written."""
    try:
        store.put(store.failure_file(key), text_of({"why": why, "machine": machine()}),
                  is_settled=False)
    except OSError as fault:
        print(f"irv --batch: the reason cannot be kept: {fault}", file=sys.stderr)


def module_for(kind):
    """Returns the module for a kind of job. Only that one is imported: most jobs are shorter than
    the imports."""
    return importlib.import_module(
        f"irvtools.batch.{'job_kinds' if kind in OF_PROGRAM else 'solver_jobs'}")


def doer(kind):
    """Returns the function for a kind of job."""
    return module_for(kind).DOES[kind]


def prepare(store: Store, job: dict[str, Any]) -> None:
    """Reads a job's shared inputs, once for all jobs of a group."""
    doer(job["kind"])
    with contextlib.suppress(NoAnswer, OSError):
        module_for("check").checked(store, job["program"])


def work(store: Store, key: str) -> int:
    """Does a job. Returns the exit status."""
    try:
        note_failure(store, key, NO_WORD)
        job = store.job(key)
        with tempfile.TemporaryDirectory(dir=store.making) as room:
            keep(store, job, doer(job["kind"])(store, job, Path(room)))
        store.failure_file(key).unlink(missing_ok=True)
    except (NoAnswer, OSError, ValueError, KeyError) as fault:
        why = str(fault) or type(fault).__name__
        print(f"irv --batch: no answer: {why}", file=sys.stderr, flush=True)
        note_failure(store, key, why)
        return 1
    return 0
