"""Tests of the changes that tools/verify_package finds in a package, with old or new checksums,
alone and with a release or another program."""

import bz2
import gzip
import hashlib
import json
import os
import re
import shutil
import subprocess
import sys
from contextlib import contextmanager
from pathlib import Path

from irvtools.package.single_file import script
from irvtools.package.source_archive import archive_of
from irvtools.package.source_checksums import files_of, tree_of
from irvtools.package.verify_package import FAILED, Judge
from tests.support.harness import test_case
from tests.support.package_calls import (
    TOP, call, changed, copied, example, flip, judged, made, place, renew_sums,
)

TAKES_LONG = True

# a part of each kind, and the file or answer that the judge names despite new checksums
CHANGES = {
    "configuration.json": "answers/", "answers/verify.txt": "answers/verify.txt",
    "answers/check-strict.txt": "answers/check-strict.txt", "verify.cert": "verify.cert",
    "program/irv": "program here is", "index.html": "index.html", "report.html": "report.html",
    "repeat.sh": "repeat.sh", "version.txt": "index.html", "calls.json": "",
    "documents/docs/reference/model.md": "documents/docs/reference/model.md", "checkers/audit": "checkers/audit",
    "checkers/irvtools/checkers/certificate.py": "checkers/irvtools/checkers/certificate.py",
    "documents/crates/ilk_model/specs/Event.antt": "documents/crates/ilk_model/specs/Event.antt",
    "sources.tar.bz2": "sources.tar.bz2", "lrat/step-1.cnf": "lrat: "}
SHORT = ("--solver-seconds", "0")


@contextmanager
def package(program, name="line-with-boards.json"):
    """Yields a package of an example."""
    with copied(program, example(name), *SHORT) as (directory, said):
        assert said.startswith("safe k="), said
        yield directory


@contextmanager
def kept(directory):
    """Yields a temporary copy of a package."""
    copy = directory.with_name("copy")
    shutil.copytree(directory, copy)
    try:
        yield copy
    finally:
        shutil.rmtree(copy)


def write_release(room, directory):
    """Writes the judge's part of a release: a package's version, sources, licences and program."""
    release = room / "release"
    release.mkdir()
    shutil.copy(directory / "version.txt", release)
    shutil.copy(directory / "program/irv", release)
    (release / "irv.licences").write_bytes(b"")
    (release / "sources.tar.gz").write_bytes(gzip.compress(bz2.decompress(
        (directory / "sources.tar.bz2").read_bytes())))
    return release


def check_good(program, _):
    """An unchanged package passes, by the tool and by a release's single file in an empty
    environment and directory. Both print the checksum of SHA256SUMS, and change nothing."""
    with package(program, "station.json") as directory:
        before = sorted((path.as_posix(), path.stat().st_mtime_ns) for path in directory.rglob("*"))
        total = hashlib.sha256((directory / "SHA256SUMS").read_bytes()).hexdigest()
        file = directory.with_name("verify_package.py")
        file.write_text(script())
        for judge, words in (((TOP / "tools/verify_package",), ("--program", program)),
                             ((TOP / "tools/verify_package",), ("--program", "irv.unbuilt")),
                             ((sys.executable, "-I", "-S", file), ())):
            failures, lines, status = judged(directory, *words, judge=judge)
            if failures or status or not lines[-1] == f"sha256 of SHA256SUMS: {total}":
                yield f"{judge}: {status} {failures} {lines}"
            if not re.match(r"[0-9]{3,} passed, 0 failed$", lines[-2]):
                yield f"{judge}: {lines}"
        if sorted((path.as_posix(), path.stat().st_mtime_ns) for path in directory.rglob("*")) != before:
            yield "the package was changed"


def check_kinds(program, _):
    """Packages with deviations, with a run to a hazard, without a verdict or without a plant pass."""
    meet = ("--run", TOP / "examples/two-trains-meet.run")
    for name, words in (("platforms-wrong-position.json", ("--depth", "8")),
                        ("platforms-wrong-position.json", ("--depth", "1", "--search-seconds", "0")),
                        ("two-sections.json", (*meet, "--search-seconds", "0", "--title", "T"))):
        with made(program, example(name), *words) as (directory, said):
            failures, lines, status = judged(directory)
            if failures or status:
                yield f"{said}: {failures} {lines}"
    with made(program, b"[") as (directory, said):
        failures, lines, status = judged(directory)
        if failures or status:
            yield f"{said}: {failures} {lines}"


def check_links(program, _):
    """Each link of a copied package has a target there."""
    with package(program, "station.json") as directory, kept(directory) as copy:
        shutil.rmtree(directory)
        failures, _, _ = judged(copy)
        yield from (it for it in failures if "dead links" in it)
        linked = (copy / "documents/docs/assurance").is_dir() and (copy / "documents/crates").is_dir()
        if not linked or not list((copy / "documents/docs/pictures").iterdir()):
            yield "the definitions or the pictures are missing"
        directory.mkdir()


def check_changes(program, _):
    """Checksums find a change of each kind of file. With new ones another check finds it, and names
    the file or its product."""
    with package(program) as directory:
        for name, wanted in CHANGES.items():
            with kept(directory) as copy:
                flip(copy / name)
                failures = [text for result, text in Judge(copy).check_sums() if result == FAILED]
                if failures != [f"{name}: its checksum differs"]:
                    yield f"{name} is changed: {failures}"
                renew_sums(copy)
                failures, _, status = judged(copy)
                if status != 1 or not any(wanted in it for it in failures):
                    yield f"{name} is changed, with new checksums: {status} {failures}"


def check_added_and_missing(program, _):
    """A new or missing file, a symbolic link and a dead link are found, even with new checksums."""
    with package(program) as directory:
        for wanted, change in (
                ("note.txt: not a part", lambda copy: (copy / "note.txt").write_text("x")),
                ("documents/note.txt: differs", lambda copy: (copy / "documents/note.txt").write_text("x")),
                ("answers/audit.txt: the package is not complete", lambda copy: (copy / "answers/audit.txt").unlink()),
                ("README.md: the package is not complete", lambda copy: (copy / "documents/README.md").unlink()),
                ("dead links: docs/tutorial.md", lambda copy: (copy / "documents/docs/tutorial.md").unlink()),
                ("repeat.sh: a symbolic link", lambda copy: (
                    (copy / "repeat.sh").unlink(), (copy / "repeat.sh").symlink_to("/dev/null")))):
            with kept(directory) as copy:
                change(copy)
                renew_sums(copy)
                failures, _, status = judged(copy)
                if status != 1 or not any(wanted in it for it in failures):
                    yield f"{wanted}: {status} {failures}"


def drop_call(copy, name):
    """Removes a call and its answer from a package's record."""
    record = json.loads((copy / "calls.json").read_text())
    record["calls"] = [it for it in record["calls"] if it["name"] != name]
    (copy / "calls.json").write_text(json.dumps(record, indent=1) + "\n")
    (copy / f"answers/{name}.txt").unlink()


def free_columns(copy):
    """Gives the first call of a package free columns."""
    text = (copy / "calls.json").read_text()
    (copy / "calls.json").write_text(text.replace('"strict"', '"free"', 1))


def other_command(copy):
    """Gives a call of a package another command."""
    text = (copy / "calls.json").read_text()
    (copy / "calls.json").write_text(text.replace('"program/irv"', '"true"', 1))


def check_record(program, _):
    """A record with a missing call, other columns or a foreign command is found, and that command
    is not called."""
    with package(program) as directory:
        for wanted, change in (("no call audit-outside", lambda copy: drop_call(copy, "audit-outside")),
                               ("no call check-strict with strict columns", free_columns),
                               ("check-strict is not a call", other_command),
                               ("not a list of calls", lambda copy: (copy / "calls.json").write_text("[]"))):
            with kept(directory) as copy:
                change(copy)
                renew_sums(copy)
                failures, _, status = judged(copy)
                if status != 1 or not any(wanted in it for it in failures):
                    yield f"{wanted}: {status} {failures}"


def everything_anew(copy):
    """Changes a document, also in a package's sources, and renews all that depends on it."""
    files = files_of(bz2.decompress((copy / "sources.tar.bz2").read_bytes()))
    name = "docs/reference/model.md"
    files[name] = files[name][0], files[name][1] + b"\nOther words.\n"
    (copy / "documents" / name).write_bytes(files[name][1])
    archive = archive_of(files, files["VERSION"][1].decode().strip())
    (copy / "sources.tar.bz2").write_bytes(archive)
    text = (copy / "version.txt").read_text()
    text = re.sub(r"(?m)^tree .*", f"tree {tree_of(files)}", text)
    text = re.sub(r"(?m)^(sources.tar.bz2 sha256) .*", rf"\1 {hashlib.sha256(archive).hexdigest()}", text)
    (copy / "version.txt").write_text(text)
    done = subprocess.run([sys.executable, "-m", "irvtools.package.redraw", copy, copy.with_name("out")],
                          env={**os.environ, "PYTHONPATH": str(TOP / "tools")}, check=True)
    assert done.returncode == 0
    for page in ("index.html", "report.html", "repeat.sh"):
        shutil.copy(copy.with_name("out") / page, copy / page)
    renew_sums(copy)


def check_release(program, _):
    """If everything that depends on a changed document is renewed, only a release of that version
    finds it. The same holds for another program or toolchain in the version file."""
    with package(program) as directory:
        release = write_release(directory.parent, directory)
        failures, lines, status = judged(directory, "--release", release)
        if failures or status or any(line.startswith("note: ") for line in lines):
            yield f"as it was made: {failures} {lines}"
        with kept(directory) as copy:
            copy.with_name("out").mkdir()
            everything_anew(copy)
            failures, lines, status = judged(copy)
            if failures or status or not any(line.startswith("note: nothing outside") for line in lines):
                yield f"everything anew: {failures} {lines}"
            failures, _, status = judged(copy, "--release", release)
            if status != 1 or "sources.tar.bz2: not the sources of the release" not in failures:
                yield f"everything anew, with a release: {status} {failures}"
        text = (release / "version.txt").read_text()
        (release / "version.txt").write_text(re.sub(r"(?m)^(program sha256 |toolchain ).*", r"\1other", text))
        failures, _, status = judged(directory, "--release", release)
        for word in ("program", "toolchain"):
            if status != 1 or not any(f"version.txt: {word} differs from the release" in it for it in failures):
                yield f"{word}: {status} {failures}"


def check_release_beside(program, _):
    """The single file in a release compares with that release by default."""
    with package(program) as directory:
        release = write_release(directory.parent, directory)
        (release / "verify_package.py").write_text(script())
        (release / "irv.licences").write_text("other")
        failures, _, status = judged(directory, judge=(sys.executable, "-I", release / "verify_package.py"))
        if status != 1 or failures != ["program/irv.licences: not those of the release"]:
            yield f"{status} {failures}"


LIAR = """#!/bin/sh
case $1 in {command}) echo '{line}'; exit {status} ;; esac
exec '{program}' "$@"
"""


def check_other_program(program, _):
    """A lying program's package passes by itself, but another program finds each lie."""
    given = changed(example("platforms-wrong-position.json"), lambda value: None)
    with place() as directory:
        liar = directory.parent / "liar"
        liar.write_text(LIAR.format(command="check", line="clean", status=0, program=program))
        liar.chmod(0o755)
        done = call(liar, directory, given, *SHORT, "--search-seconds", "0")
        if b"clean, and so safe" not in done.stdout and b"contradiction" not in done.stdout:
            yield f"the fake program makes another package: {done}"
        failures, _, status = judged(directory, "--program", program)
        if status != 1 or not any(it.startswith("answers/check-strict.txt: the answer of ") for it in failures):
            yield f"{status} {failures}"


def check_refusals(program, _):
    """Anything but a package, release or program is refused with status 125."""
    with package(program) as directory:
        empty = directory.parent / "empty"
        empty.mkdir()
        for words, why in (((empty,), "empty has no file SHA256SUMS"), ((directory, "--release", empty), "no file"),
                           ((directory, "--program", empty / "no"), "does not exist"), ((), "DIRECTORY"),
                           ((directory, "--program", "irv.unbuilt", "--with-program"),
                            "does not exist")):
            done = subprocess.run([TOP / "tools/verify_package", *words], capture_output=True, check=False)
            if done.returncode != 125 or why not in done.stderr.decode():
                yield f"{words}: {done}"
        if not Path(empty).is_dir():
            yield "the directory is gone"


JudgeTests = test_case("JudgeTests", (
    check_good, check_kinds, check_links, check_changes, check_added_and_missing, check_record, check_release,
    check_release_beside, check_other_program, check_refusals,
))
