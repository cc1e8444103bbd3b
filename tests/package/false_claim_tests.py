"""Tests of claims that a package must not make: fake programs, notes of other builds, unusual names
and invalid checksums."""

import hashlib
import os
import shutil
import subprocess

from tests.support.package_calls import TOP, call, copied, example, place, repeat, text_of_page
from tests.support.harness import test_case

FAKE = """#!/bin/sh
case $1 in {command}) {does} ;; esac
exec '{program}' "$@"
"""
NAME = b"a 'quoted\" <b> \xff name.json"
SHOWN = "a 'quoted\" <b> \\xff name.json"
RUN = b"-a run\n\xff"


def fake_at(room, program, command, does):
    """Returns a program that does something else at one command."""
    path = room / "fake_at"
    path.write_text(FAKE.format(command=command, does=does, program=program))
    path.chmod(0o755)
    return path


def check_contradiction(program, _):
    """If a checker rejects the certificate, or a scenario ends in a hazard although the table is
    said to be safe, the package reports a contradiction, not safety."""
    scene = TOP / "examples/station-crossing.scene"
    for command, does, wanted in (
            ("audit", "echo 'rejected line 1'; exit 6",
             "a contradiction: safe k=1, and audit: rejected line 1"),
            ("drive", "echo 'hazard two a steps=1'; exit 1",
             "a contradiction: safe k=1, and hazard two a steps=1, by runs/1.scene")):
        with place() as directory:
            fake = fake_at(directory.parent, program, command, does)
            done = call(fake, directory, example("station.json"), "--solver-seconds", "0", "--run", scene)
            if done.returncode or f": {wanted}\n" not in done.stdout.decode():
                yield f"{command}: {done}"
            elif "Use nothing of this package" not in text_of_page(directory):
                yield f"{command}: index.html does not say that nothing counts"


def check_no_answer(program, _):
    """Without check's answer no package is made. Without verify's the package says why."""
    given = example("line-with-boards.json")
    with place() as directory:
        fake = fake_at(directory.parent, program, "check", "kill -9 $$")
        done = call(fake, directory, given)
        if done.returncode != 125 or b"irv check was ended by SIGKILL" not in done.stderr or directory.exists():
            yield f"check was killed: {done}"
        fake = fake_at(directory.parent, program, "verify", "exit 0")
        done = call(fake, directory, given, "--search-seconds", "0")
        if b"clean, and so safe, without a certificate: no answer: irv verify ended with status 0" not in done.stdout:
            yield f"verify said nothing: {done}"


def check_names(program, _):
    """Names with quotes, blanks, markup, a first dash, a line feed or bytes that are not UTF-8 are
    shown. A package in such a directory can be repeated with any CDPATH."""
    with place() as directory:
        room = directory.parent
        given, run = os.fsencode(room) + b"/" + NAME, os.fsencode(room) + b"/" + RUN
        with open(given, "wb") as file:
            file.write(example("line-with-boards.json"))
        shutil.copy(TOP / "examples/two-trains-meet.run", run)
        (room / "elsewhere/-a 'package").mkdir(parents=True)
        with open(given, "rb") as source:
            done = subprocess.run([TOP / "tools/package", "./-a 'package", b"--run=" + RUN, "--solver-seconds", "0", "--program",
                                   program], cwd=room, stdin=source, capture_output=True, check=False)
        if done.returncode:
            yield f"{done}"
            return
        told = text_of_page(room / "-a 'package")
        yield from (f"{word!r} is not shown" for word in (f"Evidence package of {SHOWN}", "-a run\\x0a\\xff, a run:")
                    if word not in told)
        done = subprocess.run(["bash", "--", "-a 'package/repeat.sh", program], cwd=room, capture_output=True,
                              check=False, env={**os.environ, "CDPATH": str(room / "elsewhere")})
        if done.returncode or not done.stdout.endswith(b" the same, 0 differ, 0 left out\n"):
            yield f"repeated: {done}"


def check_notes(program, _):
    """A proof note counts only for the program beside it, and the unproved build's note never. A
    program of other sources gets no version."""
    given, total = example("line-with-boards.json"), hashlib.sha256(program.read_bytes()).hexdigest()
    unknown = ("not known to be proved", "commit unknown; ", "sources unknown")
    with place() as directory:
        for name, of, wanted in (
                ("irv", total, ("\nproved: the launcher", "commit unknown; ", "sources elsewhere")),
                ("irv", "0" * 64, unknown), ("irv-unproved", total, unknown)):
            copy = directory.parent / name
            shutil.copy(program, copy)
            note = f"sources elsewhere\nprogram {of}\ntoolchain kit 1\ndate 2026-12-01\n"
            copy.with_name(f"{name}.built").write_text(note)
            done = call(copy, directory, given, "--solver-seconds", "0")
            told = (directory / "version.txt").read_text() if done.returncode == 0 else f"{done}"
            yield from (f"{name} {of}: {word!r} is missing: {told}" for word in wanted if word not in told)
            shutil.rmtree(directory, ignore_errors=True)


def check_wrong_checksums(program, _):
    """An invalid checksum and a new symbolic link are found."""
    with copied(program, example("line-with-boards.json"), "--solver-seconds", "0") as (directory, _):
        sums = directory / "SHA256SUMS"
        lines = sums.read_text().splitlines()
        place = next(number for number, line in enumerate(lines) if line.endswith("  report.html"))
        lines[place] = "z" * 64 + lines[place][64:]
        sums.write_text("\n".join(lines) + "\n")
        (directory / "report.html").write_text("another report")
        (directory / "link").symlink_to("report.html")
        told, status = repeat(directory)
        for wanted in ("differs: SHA256SUMS", "differs: the list of files: > link"):
            if status != 1 or wanted not in told:
                yield f"{wanted}: {status} {told}"


FalseClaimTests = test_case("FalseClaimTests", (
    check_contradiction, check_no_answer, check_names, check_notes, check_wrong_checksums,
))
