"""Calls a program and measures its time, its memory and the machine."""

from __future__ import annotations

import ctypes
import os
import platform
import signal
import subprocess
import threading
import time
from typing import Callable

from irvtools.batch.program_answers import NoAnswer
from irvtools.calls.interruption import ended, held, released

PARENT_DIES = 1         # PR_SET_PDEATHSIG of prctl(2)
TAIL = 4000             # bytes read of an error message


def machine() -> str:
    """Returns a description of this machine in one line."""
    return f"{platform.node()} {platform.system()} {platform.release()} {platform.machine()}"


def tie(number: int = signal.SIGKILL) -> Callable[[], None]:
    """Returns a function that makes a child of this process end with it, by a signal. The child
    calls it before it becomes another program."""
    parent = os.getpid()

    def end_with_parent():
        ctypes.CDLL(None).prctl(PARENT_DIES, int(number))
        if os.getppid() != parent:      # it has already ended
            signal.raise_signal(number)
    return end_with_parent


def last_line(data: bytes) -> str:
    """Returns the last non-empty line of a text."""
    lines = data.decode(errors="replace").split("\n")
    return next((line.strip() for line in reversed(lines) if line.strip()), "")


class Called:
    """An ended call: status, first line, error message and measures. The status is `None` after a
    time limit. Its temporary files are in its own room."""

    def __init__(self, words, given, room, seconds=None):
        self.output = room / "output.txt"
        begin = time.monotonic()
        with open(self.output, "wb") as out, open(room / "complaint", "w+b") as errors:
            with held(), ended(self.start(words, given, room, out, errors)) as child, released():
                is_late = self.wait(child, seconds)
            errors.seek(max(0, errors.tell() - TAIL))
            self.complaint = last_line(errors.read())
        self.seconds = round(time.monotonic() - begin, 3)
        if is_late:
            self.status = None
        with open(self.output, "rb") as out:
            self.line = out.readline(TAIL).decode(errors="replace").removesuffix("\n")

    @staticmethod
    def start(words, given, room, out, errors):
        """Starts the program with a file, or nothing, as standard input."""
        try:
            with open(given or os.devnull, "rb") as source:
                return subprocess.Popen(words, stdin=source, stdout=out, stderr=errors,
                                        env={**os.environ, "TMPDIR": str(room)},
                                        preexec_fn=tie())
        except OSError as fault:
            raise NoAnswer(f"{words[0]} cannot be called: {fault.strerror}") from fault

    def wait(self, child, seconds):
        """Waits for the end, and takes status and measures. Returns whether the time limit was
        reached."""
        late = threading.Event()
        timer = threading.Timer(seconds or 0, lambda: (late.set(), child.kill()))
        if seconds is not None:
            timer.start()
        try:
            _, status, used = os.wait4(child.pid, 0)
        finally:
            timer.cancel()
        self.status = child.returncode = os.waitstatus_to_exitcode(status)
        self.processor_seconds = round(used.ru_utime + used.ru_stime, 3)
        self.memory_kib = used.ru_maxrss
        return late.is_set()

    def measures(self):
        """Returns the call's measures."""
        return {"seconds": self.seconds, "processor_seconds": self.processor_seconds,
                "memory_kib": self.memory_kib}
