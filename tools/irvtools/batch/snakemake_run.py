"""Runs Snakemake on the jobs without an answer. One call at a time works in a results directory."""

from __future__ import annotations

import contextlib
import fcntl
import json
import os
import shutil
import signal
import subprocess
import sys
import time
from pathlib import Path
from typing import Any, BinaryIO, Callable, Iterator

from irvtools.batch import process_group
from irvtools.batch.measuring import tie
from irvtools.batch.progress import Progress
from irvtools.batch.store import Store
from irvtools.calls.interruption import held
from irvtools.calls.refusal import Refused

ENGINE = "snakemake"
SNAKEFILE = Path(__file__).resolve().parent / "Snakefile"
SEEN_WITHIN = 60        # seconds until this machine sees what another one wrote
MISSING = ("Snakemake is not installed, and runs the jobs; install it, for example by "
           "`apt-get install --no-install-recommends snakemake`")


def need_engine() -> None:
    """Raises an error if Snakemake is missing."""
    if shutil.which(ENGINE) is None:
        raise Refused(MISSING)


def version_in(store: Store) -> str:
    """Returns Snakemake's name and version, from its last run in this directory."""
    try:
        return f"{ENGINE} {(store.top / 'engine').read_text(encoding='utf-8').strip()}"
    except (OSError, ValueError):
        return f"{ENGINE} of an unknown version"


@contextlib.contextmanager
def alone(store: Store) -> Iterator[BinaryIO]:
    """Locks the directory against other calls, and against a Snakemake that an earlier call left."""
    with open(store.top / "lock", "wb") as lock:
        try:
            fcntl.flock(lock, fcntl.LOCK_EX | fcntl.LOCK_NB)
        except BlockingIOError:
            print(f"irv --batch: an earlier call works in {store.top}; this one waits for its end",
                  file=sys.stderr, flush=True)
            fcntl.flock(lock, fcntl.LOCK_EX)
        yield lock


def remove_temporary(store):
    """Removes the groups and the temporary files of stopped jobs."""
    for left in (*store.making.iterdir(), *store.groups.iterdir()):
        if left.is_dir() and not left.is_symlink():
            shutil.rmtree(left, ignore_errors=True)
        else:
            left.unlink(missing_ok=True)


def sweep(store: Store, jobs: dict[str, dict[str, Any]]) -> tuple[list[dict[str, Any]], set[str]]:
    """Removes the remains of earlier calls and incomplete answers. Returns the jobs without an
    answer, and the keys of those begun before."""
    remove_temporary(store)
    missing = [job for job in jobs.values() if store.answer(job) is None]
    tried = {job["key"] for job in missing if store.failure(job) is not None}
    for job in missing:
        store.answer_file(job).unlink(missing_ok=True)
        store.failure_file(job["key"]).unlink(missing_ok=True)
    return missing, tried


def words_of(store, handed_on):
    """Returns Snakemake's command line. It repeats only stopped jobs."""
    return [
        ENGINE, "--snakefile",
        str(SNAKEFILE), "--directory",
        str(store.top), "--nolock", "--keep-going", "--rerun-incomplete", "--rerun-triggers",
        "mtime", "--scheduler", "greedy", "--nocolor", *handed_on
    ]


def watch(child, store, missing, progress, signals):
    """Waits for Snakemake's end or a signal, and reports progress meanwhile."""
    next_count = time.monotonic()
    while not signals.count and not process_group.has_ended(child):
        if time.monotonic() >= next_count:
            progress.count(sum(store.answer_file(job).exists() for job in missing), len(missing))
            next_count = time.monotonic() + progress.seconds
        time.sleep(process_group.TURN)


def put_targets(store: Store, groups: list[list[dict[str, Any]]],
                apart: list[dict[str, Any]]) -> None:
    """Keeps the groups and the list of Snakemake's target files."""
    ends = [store.group_end(store.put_group(group))
            for group in groups] + [store.answer_file(job) for job in apart]
    targets = [os.path.relpath(end, store.top) for end in ends]
    store.put(store.top / "targets.json", json.dumps(targets).encode(), is_settled=False)


def see_groups(store):
    """Waits until the answers of finished groups are visible. A file system shared by many machines
    may show them late, and Snakemake saw only the group ends."""
    end = time.monotonic() + SEEN_WITHIN
    keys = {key for group in store.groups.glob("*.done") for key in store.group(group.stem)}
    while any(store.answer(store.job(key)) is None for key in keys) and time.monotonic() < end:
        time.sleep(1)


def prepare_engine(end_with_parent: Callable[[], None]) -> None:
    """Prepares the child that becomes Snakemake: the signals that end it count, even if the caller
    ignores them."""
    for number in (signal.SIGINT, signal.SIGTERM):
        signal.signal(number, signal.SIG_DFL)
    end_with_parent()


def do_all(store: Store, missing: list[dict[str, Any]], handed_on: list[str], lock: BinaryIO,
           progress: Progress) -> int:
    """Runs Snakemake on the targets to answer these jobs. Returns its exit status. Its output goes
    to a file. It has its own process group, so all its processes can be ended. If this process is
    killed, Snakemake starts no more jobs, and ends after those under way."""
    end_with_parent = tie(signal.SIGINT)
    with open(store.top / "snakemake.log", "wb") as log, held() as signals:
        child = subprocess.Popen(words_of(store, handed_on), stdin=subprocess.DEVNULL, stdout=log,
                                 stderr=log, pass_fds=[lock.fileno()], start_new_session=True,
                                 preexec_fn=lambda: prepare_engine(end_with_parent))
        try:
            watch(child, store, missing, progress, signals)
        finally:
            if signals.count or not process_group.has_ended(child):
                process_group.stop(child, signals)
                remove_temporary(store)
            status = child.poll()
    see_groups(store)
    return status
