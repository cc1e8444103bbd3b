"""Tests of tools/package's terminal output, and of interrupted calls."""

import os
import pty
import signal
import subprocess
import tempfile
import time
from pathlib import Path

from tests.support.harness import test_case
from tests.support.package_calls import TOP, example

SECONDS = 60            # for a call to reach the awaited point
# a program whose verify leaves a temporary file, writes its process number, and takes long
SLOW = """#!/bin/sh
case $1 in verify) mktemp > /dev/null; echo $$ > '{room}/begun'; exec sleep 300 ;; esac
exec '{program}' "$@"
"""


def waits(condition):
    """Returns whether a condition becomes true in time."""
    end = time.monotonic() + SECONDS
    while not condition() and time.monotonic() < end:
        time.sleep(0.1)
    return condition()


def check_interrupted(program, _):
    """A call ended by a signal says so, with status 125. It leaves no directory, no process, and no
    temporary file of its own or its tools."""
    for number in (signal.SIGINT, signal.SIGTERM, signal.SIGHUP):
        with tempfile.TemporaryDirectory(prefix="irv-test-package-") as name:
            room = Path(name)
            for directory in ("place", "temporary"):
                (room / directory).mkdir()
            slow, begun = room / "slow", room / "begun"
            slow.write_text(SLOW.format(program=program, room=room))
            slow.chmod(0o755)
            with open(TOP / "examples/two-sections.json", "rb") as given, subprocess.Popen(
                    [TOP / "tools/package", room / "place/filed", "--program", slow], stdin=given,
                    stdout=subprocess.PIPE, stderr=subprocess.PIPE, preexec_fn=unblock,
                    env={**os.environ, "TMPDIR": str(room / "temporary")}) as process:
                if not waits(lambda: begun.exists() and begun.read_text().endswith("\n")):
                    yield "verify was not called"
                    process.kill()
                    return
                process.send_signal(number)
                output, errors = process.communicate()
            wanted = f"irv --package: ended by {number.name}; no package is made\n"
            if process.returncode != 125 or output or errors.decode() != wanted:
                yield f"{number.name}: {process.returncode} {output} {errors}"
            if Path(f"/proc/{begun.read_text().strip()}").exists():
                yield f"{number.name}: verify still runs"
            left = [path.name for directory in ("place", "temporary") for path in (room / directory).iterdir()]
            if left:
                yield f"{number.name}: {left} is left"


def unblock():
    """Makes the signals end a process, even if the caller ignores them."""
    for number in (signal.SIGINT, signal.SIGTERM, signal.SIGHUP):
        signal.signal(number, signal.SIG_DFL)


def check_terminal(program, _):
    """On a terminal the call shows its current step. Elsewhere standard error is empty."""
    with tempfile.TemporaryDirectory(prefix="irv-test-package-") as name:
        words = [TOP / "tools/package", Path(name) / "one", "--program", program, "--search-seconds", "0"]
        done = subprocess.run(words, input=example("two-sections.json"), capture_output=True, check=False)
        if done.returncode or done.stderr:
            yield f"{done}"
        master, terminal = pty.openpty()
        words[1] = Path(name) / "two"
        done = subprocess.run(words, input=example("two-sections.json"), stdout=subprocess.PIPE, stderr=terminal,
                              check=False)
        os.close(terminal)
        said = os.read(master, 1 << 16).decode()
        os.close(master)
        for step in ("sources and documents", "irv check", "irv verify", "report"):
            if f"irv --package: {step}" not in said:
                yield f"no step {step}: {said!r}"
        if done.returncode or not (Path(name) / "two/index.html").is_file():
            yield f"{done}"


InterruptTests = test_case("InterruptTests", (check_interrupted, check_terminal))
