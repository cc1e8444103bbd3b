"""Ends Snakemake and its jobs on this machine. They are one process group.

All get SIGINT, and the jobs are killed. SIGTERM would not do, for two reasons:

- Snakemake then waits for its jobs, also for one that it starts just after the signal.
- Its handler takes a lock. If the main thread holds that lock, because it selects jobs or notes
  that one has ended, Snakemake never ends.
"""

from __future__ import annotations

import contextlib
import os
import signal
import subprocess
import time
from pathlib import Path

from irvtools.calls.interruption import Signals

TURN = 0.05             # seconds between two looks
TO_END = 10             # seconds for Snakemake to end by itself
TO_BE_GONE = 10         # seconds for killed processes to be gone
JOB_OPTIONS = b"--run-job", b"--run-group"
ENDED = b"Z", b"X"      # states of processes in /proc


def has_ended(child: subprocess.Popen) -> bool:
    """Returns whether a child has ended. Its number stays its own until `child.poll()`."""
    return os.waitid(os.P_PID, child.pid, os.WEXITED | os.WNOHANG | os.WNOWAIT) is not None


def members(group: int) -> list[Path]:
    """Returns the running processes of a group, as directories of /proc."""
    found = []
    for process in Path("/proc").glob("[0-9]*"):
        with contextlib.suppress(OSError, ValueError):
            state, _, its_group = (process / "stat").read_bytes().rpartition(b")")[2].split()[:3]
            if int(its_group) == group and state not in ENDED:
                found.append(process)
    return found


def kill_jobs(group: int) -> None:
    """Kills the processes of a group that do jobs, and so the programs that these call. Leaves the
    commands by which Snakemake cancels jobs on other machines."""
    for process in members(group):
        with contextlib.suppress(OSError):
            words = (process / "cmdline").read_bytes()
            if int(process.name) != group and any(option in words for option in JOB_OPTIONS):
                os.kill(int(process.name), signal.SIGKILL)


def stop(child: subprocess.Popen, signals: Signals) -> None:
    """Ends Snakemake and all of its group, and waits until they are gone. If it takes too long, or
    at a second signal, Snakemake is killed."""
    os.killpg(child.pid, signal.SIGINT)
    end = time.monotonic() + TO_END
    while not has_ended(child) and signals.count < 2 and time.monotonic() < end:
        kill_jobs(child.pid)
        time.sleep(TURN)
    os.killpg(child.pid, signal.SIGKILL)
    end = time.monotonic() + TO_BE_GONE
    while members(child.pid) and time.monotonic() < end:
        time.sleep(TURN)
