"""Tests of a report's progress, its certificate, its subject, and the files after an interruption."""

import json
import os
import pty
import signal
import subprocess
import tempfile
import time
from pathlib import Path

from irvtools.paths import TOP
from tests.support import fake_program, fifteen_section_line
from tests.support.html_reports import plain
from tests.support.report_plants import plants
from tests.support.harness import test_case

BEGUN = 60              # seconds within which verify has to start


def made(program, given, directory, *words, **how):
    """Makes a report in a directory. Returns the finished process."""
    return subprocess.run([TOP / "tools/html", "out.html", "--program", program, *words], input=given,
                          cwd=directory, capture_output=True, check=False, **how)


def said_on_terminal(program, given, directory):
    """Returns a report's standard error on a terminal."""
    ours, theirs = pty.openpty()
    try:
        subprocess.run([TOP / "tools/html", "out.html", "--program", program, "--search-seconds", "1"],
                       input=given, cwd=directory, stdout=subprocess.DEVNULL, stderr=theirs, check=False)
        os.close(theirs)
        said = b""
        while True:
            try:
                piece = os.read(ours, 1 << 16)
            except OSError:
                return said.decode()
            if not piece:
                return said.decode()
            said += piece
    finally:
        os.close(ours)


def check_progress(program, _):
    """On a terminal the report shows what it is doing. Elsewhere it adds nothing to its errors."""
    given = plants()["line-with-boards"]
    with tempfile.TemporaryDirectory(prefix="irv-test-") as directory:
        said = said_on_terminal(program, given, directory)
        for words in ("irv check", "irv verify", "for up to 20 seconds", "out.html is written"):
            if words not in said:
                yield f"{words!r} isn't said: {said!r}"
        done = made(program, given, directory)
        if done.stderr:
            yield f"without a terminal: {done.stderr}"


def check_certificate(program, _):
    """The output and the report name a remaining certificate with its size. `--no-cert` leaves
    none."""
    given = plants()["line-with-boards"]
    with tempfile.TemporaryDirectory(prefix="irv-test-") as directory:
        done = made(program, given, directory)
        size = Path(directory, "out.cert").stat().st_size
        text = plain(Path(directory, "out.html").read_text(encoding="utf-8"))
        if f"out.cert: certificate, {size} bytes; --no-cert leaves none" not in done.stdout.decode():
            yield f"printed: {done.stdout.decode()}"
        if f"The certificate is in out.cert ({size} bytes)." not in text:
            yield "the size isn't on the report"
        os.unlink(Path(directory, "out.cert"))
        done = made(program, given, directory, "--no-cert")
        text = plain(Path(directory, "out.html").read_text(encoding="utf-8"))
        if os.listdir(directory) != ["out.html"] or "cert" in done.stdout.decode():
            yield f"with --no-cert: {os.listdir(directory)}; {done.stdout.decode()}"
        for words in ("SAFE", "The certificate was not kept (--no-cert).", "--cert FILE"):
            if words not in text:
                yield f"{words!r} isn't on the report"
        if "/tmp/" in text.replace(directory, "").replace(str(Path(program).parent), ""):
            yield "the report names a temporary file"


def check_subject(program, _):
    """Title, project, issue and author are on the report as text."""
    words = {"title": "Lines & <b>boards</b>", "project": "North", "issue": "2.1 draft", "author": "A. N. Other"}
    with tempfile.TemporaryDirectory(prefix="irv-test-") as directory:
        given = plants()["line-with-boards"]
        made(program, given, directory, *(word for name, said in words.items() for word in (f"--{name}", said)))
        text = Path(directory, "out.html").read_text(encoding="utf-8")
    if "<h1>Lines &amp; &lt;b&gt;boards&lt;/b&gt;</h1>" not in text or "<b>boards" in text:
        yield "the title isn't on the report, or isn't text"
    subject = plain(text.partition('class="subject">')[2].partition("</p>")[0])
    if subject != "Project: North · Issue: 2.1 draft · Author: A. N. Other · Configuration: standard input":
        yield f"the subject: {subject}"


def is_begun(file):
    """Returns whether a file appears in time."""
    end = time.monotonic() + BEGUN
    while not file.exists() and time.monotonic() < end:
        time.sleep(0.05)
    return file.exists()


def check_interrupted(_, __):
    """A report ended by a signal leaves no file: no report, partial certificate or temporary file."""
    given = json.dumps(fifteen_section_line.right()).encode()
    for number in (signal.SIGINT, signal.SIGTERM, signal.SIGHUP):
        with tempfile.TemporaryDirectory(prefix="irv-test-") as directory:
            own, place = Path(directory, "own"), Path(directory, "place")
            own.mkdir()
            place.mkdir()
            program = fake_program.program(directory, {
                "check": {"says": "clean\n"}, "verify": {"sleeps": 900, "writes": "a part"},
                "replay": {"says": "no hazard\n", "status": 6}})
            process = subprocess.Popen(
                [TOP / "tools/html", "out.html", "--program", program, "--verify-seconds", "600"], cwd=place,
                stdin=subprocess.PIPE, stdout=subprocess.PIPE, stderr=subprocess.PIPE,
                env={**os.environ, "TMPDIR": str(own)}, preexec_fn=sane)
            process.stdin.write(given)
            process.stdin.close()
            if not is_begun(place / "out.cert"):
                yield f"{number.name}: verify wasn't called"
            process.send_signal(number)
            status = process.wait(60)
            said = process.stderr.read().decode()
            process.stdout.close()
            process.stderr.close()
            left = [*os.listdir(own), *os.listdir(place)]
            if left or status != 128 + number or said.count("\n") != 1 or "interrupted" not in said:
                yield f"{number.name}: status {status}, left {left}, said {said!r}"


def sane():
    """Resets a process's signal handling to a shell's."""
    for number in (signal.SIGINT, signal.SIGTERM, signal.SIGHUP):
        signal.signal(number, signal.SIG_DFL)


ProgressTests = test_case("ProgressTests", [check_progress, check_certificate, check_subject, check_interrupted])
