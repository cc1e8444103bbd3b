"""Tests of interrupted work: the report names missing answers, no partial result is used, and the
next call finishes."""

import contextlib
import os
import pty
import re
import shutil
import signal
import subprocess
import time
import xml.etree.ElementTree
from pathlib import Path
from unittest import SkipTest

from tests.batch.workspace import batch_case, differs, done_line, run, without_progress

REPORTS = 4             # calls interrupted while making a report
LONG = 300              # seconds to wait for an event on a loaded machine
SMALL_DISK, LARGE_DISK = "2m", "64m"    # less than the certificate of a terminus, and far more
STOPPED = 3, "irv --batch: stopped; call again to go on\n"
# a shell of jobs that ignore SIGTERM, like one that Snakemake starts just after the signal
SHELL = """#!/bin/sh
trap '' TERM
exec '{shell}' "$@"
"""
# a Snakemake that does not end by itself, like one that waits for its own lock
ENGINE = """#!/bin/sh
trap '' INT TERM
: > '{wish}.waits'
while [ -e '{wish}.waits' ]; do sleep 0.2; done
"""
# sends SIGTERM to tools/batch in a callback of the fork, from which Python drops exceptions
FORK = """import os, signal
with open("/proc/self/cmdline", "rb") as words:
    if b"tools/batch\\0" in words.read():
        os.register_at_fork(after_in_parent=lambda: signal.raise_signal(signal.SIGTERM))
"""


def check_no_answer(room):
    """A call without an answer is reported and repeated by the next call. An invalid certificate is
    found."""
    room.add("platforms.json")
    words = ["--ask", "verify"]
    for wish, why in ((
            "kill",
            "irv verify was ended by SIGKILL, which happens if the machine has no memory left"),
                      ("empty", "irv verify ended with status 1 and no answer")):
        room.fake(wish)
        done = room.call(*words)
        yield from differs(wish, (done.returncode, room.answers()[("platforms.json", "verify")]),
                           (3, ("no answer", f"no answer: {why}")))
    error = xml.etree.ElementTree.parse(room.out / "report.xml").getroot().find(".//error")
    yield from differs("JUnit", error is not None and error.get("type"), "no answer")
    yield from differs("verified", room.verify()[0], 1)
    room.fake("lie")
    done = room.call(*words)
    yield from differs("lie", (done.returncode, room.answers()[("platforms.json", "verify")]),
                       (0, ("good", "safe k=1")))
    lie = "irv audit says rejected line 1, and the report says accepted k=1"
    yield from differs("the lie is found", room.verify()[1][:1], [f"platforms.json: verify: {lie}"])


def begun(room, words, **others):
    """Starts a call that waits in verify, and returns it."""
    room.fake("wait")
    call = subprocess.Popen(room.words(*words), stdin=subprocess.DEVNULL, stdout=subprocess.DEVNULL,
                            **others)
    waits, end = Path(f"{room.wish}.waits"), time.monotonic() + LONG
    while not waits.exists() and call.poll() is None and time.monotonic() < end:
        time.sleep(0.1)
    return call


def check_killed(room):
    """If tools/batch is killed, the next call finishes the work."""
    room.add("platforms.json")
    words = ["--ask", "check", "--ask", "verify"]
    first = begun(room, words, stderr=subprocess.DEVNULL)
    first.send_signal(signal.SIGKILL)
    first.wait()
    yield from differs("a report of half the work", (room.out / "report.json").exists(), False)
    room.wish.write_text("go", encoding="ascii")
    done = room.call(*words)
    yield from differs("afterwards", (done.returncode, room.answers()),
                       (0, {("platforms.json", "check"): ("good", "clean"),
                            ("platforms.json", "verify"): ("good", "safe k=1")}))


def processes_of(room):
    """Returns the command lines of a room's processes."""
    found = []
    for path in Path("/proc").glob("[0-9]*/cmdline"):
        with contextlib.suppress(OSError):
            line = path.read_bytes().replace(b"\0", b" ").decode(errors="replace")
            found += [line] if str(room.room) in line else []
    return found


def check_interrupted(room):
    """An interrupted call ends its processes, reports the interruption and leaves no temporary
    file. The next call finishes the work."""
    room.add("platforms.json")
    room.add("two-sections.json")
    temporary = room.room / "temporary"
    temporary.mkdir()
    words = ["--ask", "check", "--ask", "verify", "--ask", "html --columns free --search-seconds 0",
             "--batch-bytes", "0"]
    for number in (signal.SIGTERM, signal.SIGINT, signal.SIGHUP):
        Path(f"{room.room}/wish.waits").unlink(missing_ok=True)
        call = begun(room, words, stderr=subprocess.PIPE, text=True,
                     env={**os.environ, "TMPDIR": str(temporary)})
        call.send_signal(number)
        yield from left_by(room, number.name, call, temporary)
    room.wish.write_text("go", encoding="ascii")
    done = room.call(*words)
    yield from differs("afterwards",
                       (done.returncode, room.answers()[("platforms.json", "verify")]),
                       (1, ("good", "safe k=1")))
    yield from differs("verified", room.verify()[0], 0)


def left_by(room, name, call, *temporary):
    """Yields how an interrupted call does not end as it should. `temporary` are directories that
    have to be empty then."""
    try:
        said = call.communicate(timeout=LONG)[1]
    except subprocess.TimeoutExpired:
        yield f"{name}: the call does not end; its processes: {processes_of(room)}"
        call.kill()
        return
    yield from differs(name, (call.returncode, without_progress(said)), STOPPED)
    yield from differs(f"{name}: processes", processes_of(room), [])
    left = [file for directory in (*temporary, room.out / "making", room.out / "groups")
            for file in directory.iterdir()]
    yield from differs(f"{name}: temporary files", left, [])
    yield from differs(f"{name}: a report", (room.out / "report.json").exists(), False)


def check_interrupted_hard(room):
    """An interruption ends jobs that ignore SIGTERM, and a Snakemake that does not end by
    itself."""
    room.add("platforms.json")
    room.fake("wait")
    shell = SHELL.format(shell=shutil.which("bash"))
    for name, text in ("bash", shell), ("snakemake", ENGINE.format(wish=room.wish)):
        Path(f"{room.wish}.waits").unlink(missing_ok=True)
        place = room.room / f"only-{name}"
        place.mkdir()
        (place / name).write_text(text, encoding="utf-8")
        (place / name).chmod(0o755)
        call = begun(room, ["--ask", "verify"], stderr=subprocess.PIPE, text=True,
                     env={**os.environ, "PATH": f"{place}:{os.environ['PATH']}"})
        call.send_signal(signal.SIGTERM)
        yield from left_by(room, name, call)


def check_interrupted_start(room):
    """A signal while Snakemake is started is not lost."""
    room.add("platforms.json")
    (room.room / "sitecustomize.py").write_text(FORK, encoding="ascii")
    call = subprocess.Popen(room.words("--ask", "check"), stdin=subprocess.DEVNULL,
                            stdout=subprocess.DEVNULL, stderr=subprocess.PIPE, text=True,
                            env={**os.environ, "PYTHONPATH": str(room.room)})
    yield from left_by(room, "start", call)


def check_interrupted_report(room):
    """An interruption while an HTML report runs verify leaves no temporary file of the report."""
    room.add("platforms.json")
    temporary = room.room / "temporary"
    temporary.mkdir()
    for _ in range(REPORTS):
        Path(f"{room.room}/wish.waits").unlink(missing_ok=True)
        call = begun(room, ["--ask", "html --columns free --search-seconds 0"],
                     stderr=subprocess.DEVNULL, env={**os.environ, "TMPDIR": str(temporary)})
        call.send_signal(signal.SIGTERM)
        yield from differs("status", call.wait(LONG), 3)
        yield from differs("processes", processes_of(room), [])
        left = [*temporary.iterdir(), *(room.out / "making").iterdir()]
        yield from differs("temporary files", left, [])


def check_terminal(room):
    """On a terminal a call shows its progress in a line that it finally clears. A file gets no
    progress."""
    room.add("platforms.json")
    reader, terminal = pty.openpty()
    done = run_beside(room.words("--ask", "check"), terminal)
    said = os.read(reader, 1 << 16).decode()
    os.close(reader)
    steps = [line.partition(": ")[2] for line in said.split("\r\x1b[K") if line]
    yield from differs("the first steps", steps[:3], [
        f"reading {room.directory}", "planning the jobs of 1 configurations",
        "0 jobs known, 1 to do: Snakemake starts"])
    yield from differs("the last step", steps[-1], "writing the report")
    counts = [step for step in steps if re.fullmatch(r"[01] of 1 jobs done, \d+:\d\d", step)]
    if not counts or not said.endswith("\r\x1b[K"):
        yield f"the terminal shows {said!r}"
    yield from differs("the output", done, done_line(1, "1 SAFE", 1, (1, 0), room))
    yield from differs("in a file", room.call("--ask", "check").stderr, "")


def run_beside(words, terminal):
    """Runs a command with a terminal as standard error. Returns its output."""
    done = subprocess.run(words, stdin=subprocess.DEVNULL, stdout=subprocess.PIPE, stderr=terminal,
                          text=True, check=False, timeout=LONG)
    os.close(terminal)
    return done.stdout


def check_full(room):
    """If the certificate cannot be written, the report says so, and the next call finishes the
    work."""
    room.add("terminus-throat.json")
    checks, both = room.words("--ask", "check"), room.words("--ask", "check", "--ask", "verify")
    yield from differs("before", run(checks).stdout, done_line(1, "1 SAFE", 1, (1, 0), room))
    done = run(["bash", "-c", 'ulimit -f 40; exec "$@"', "bash", *both])
    yield from differs("with no room",
                       (done.returncode, room.answers()[("terminus-throat.json", "verify")]),
                       (3, ("no answer", "no answer: irv verify was ended by SIGXFSZ")))
    yield from differs("an answer of half the work", list(room.out.glob("results/verify/*/*")), [])
    yield from differs("afterwards", run(both).stdout, done_line(1, "1 SAFE", 1, (1, 1), room))


def check_worker_killed(room):
    """If a worker is killed, its program ends too and the other workers go on. The next call does
    only its job."""
    room.add("platforms.json")
    room.fake("orphan")
    words = ["--ask", "check", "--ask", "verify", "--ask", "audit"]
    done = room.call(*words)
    killed = "no answer: the job ended without a message, which happens if it is killed"
    yield from differs("killed", (done.returncode, room.answers()),
                       (3, {("platforms.json", "check"): ("good", "clean"),
                            ("platforms.json", "verify"): ("no answer", killed),
                            ("platforms.json", "audit"): ("no answer", killed)}))
    yield from differs("half of a result", list(room.out.glob("results/verify/*/*")), [])
    room.wish.write_text("go", encoding="ascii")
    yield from differs("afterwards",
                       room.call(*words).stdout, done_line(1, "1 SAFE", 1, (2, 1), room))
    yield from differs("left", list((room.out / "making").iterdir()), [])
    yield from differs("verified", room.verify()[0], 0)


@contextlib.contextmanager
def small_disk(directory):
    """Mounts a small disk at a directory. Yields a function that enlarges it, or `None` if mounting
    is impossible."""
    def mount(*words):
        return run(["mount", *words, str(directory)])
    directory.mkdir()
    is_there = mount("-t", "tmpfs", "-o", f"size={SMALL_DISK}", "tmpfs").returncode == 0
    try:
        yield (lambda: mount("-o", f"remount,size={LARGE_DISK}")) if is_there else None
    finally:
        if is_there:
            run(["umount", str(directory)])


def check_full_disk(room):
    """If the disk is full, the report says so and no partial result is used. With space, the next
    call finishes the work."""
    room.add("terminus-throat.json")
    room.fake("go")
    words = ["--ask", "check", "--ask", "verify"]
    with small_disk(room.out) as enlarge:
        if enlarge is None:
            raise SkipTest("no disk can be mounted here; that needs root")
        done = room.call(*words)
        yield from differs("full", (done.returncode, room.answers()), (3, {
            ("terminus-throat.json", "check"): ("good", "clean"),
            ("terminus-throat.json", "verify"):
                ("no answer", "no answer: irv verify ended with a write fault")}))
        yield from differs("half of a result", list(room.out.glob("results/verify/*/*")), [])
        enlarge()
        yield from differs("afterwards",
                           room.call(*words).stdout, done_line(1, "1 SAFE", 1, (1, 1), room))
        yield from differs("verified", room.verify()[0], 0)


InterruptionTests = batch_case("InterruptionTests", (
    check_no_answer, check_killed, check_worker_killed, check_interrupted, check_interrupted_hard,
    check_interrupted_start, check_interrupted_report, check_terminal, check_full, check_full_disk))
