"""Does what Snakemake asks for: one job, or a group's jobs in turn.

Snakemake calls `tools/batch --run-job KEY` or `tools/batch --run-group GROUP` in the results
directory. Each job of a group has its own process: if one is killed, the others continue. A job
without a needed answer is not begun.
"""

from __future__ import annotations

import os
import sys
from pathlib import Path


from irvtools.batch.measuring import tie
from irvtools.batch.store import Store
from irvtools.batch.worker import prepare, work


def work_apart(store, key):
    """Does a job in its own process, which ends with this one. Waits for its end."""
    end_with_parent = tie()
    worker = os.fork()
    if worker:
        os.waitpid(worker, 0)
        return
    status = 1
    try:
        end_with_parent()
        status = work(store, key)
    except BaseException:  # shown as by a process without a parent here
        sys.excepthook(*sys.exc_info())
    finally:
        os._exit(status)


def is_done(store, key):
    """Does a job if it has no answer and its needed jobs have theirs. Returns whether it then has
    an answer."""
    job = store.job(key)
    if store.answer(job) is None and all(
            store.answer(store.job(need)) for need in job["needs"].values()):
        prepare(store, job)
        work_apart(store, key)
    return store.answer(job) is not None


def run(option: str, name: str) -> int:
    """Does the named job or group in the current directory. Returns 0 if each job has its answer,
    otherwise 1."""
    store = Store(Path.cwd().resolve())
    if option == "--run-job":
        return work(store, name)
    return 0 if all([is_done(store, key) for key in store.group(name)]) else 1
