"""A small repository with a fake CI, toolchain and program, to make releases from."""

import hashlib
import os
import shutil
import subprocess
import tempfile
from contextlib import contextmanager
from pathlib import Path

from irvtools.package.source_archive import files_here
from irvtools.package.source_checksums import sum_of_sources
from irvtools.paths import TOP

CI = """set -u
cd "$(dirname "$0")/.." || exit 2
tell_tree begun
tests/run --without-program || exit $?
rt ci | tools/progress || exit $?
made=$(sha256sum < crates/irv/out/irv) || exit $?
./irv --build || exit $?
tests/run --with-program || exit $?
tools/mutants || exit $?
tell_tree passed
"""
LOG = """CI begun, tree of git: @TREE@
passed docs.links (2 checks, 0.5 s): Each link leads somewhere.
passed docs.names (0.1 s)
skipped schema.examples (0.0 s): python3-jsonschema is not installed
3 passed, 0 failed, 1 skipped
== low
axioms libc: libc::open (1 of the 9 declared)
logic=proved functions=2 axioms=1 sum=0
== irv
axioms libc: libc::close, libc::open, libc::read, ... (4 of the 9 declared)
axioms os: os::c::errno (1 of the 1 declared)
logic=proved functions=6 axioms=5 sum=0
7 passed, 0 failed
rt: ok; every proof and must-fail edit was done in this run
40 passed, 0 failed
passed html.advice.asks (600 checks, 12.5 s): Advice is asked for.
passed audit.line_with_boards (523 checks, 1.0 s)
passed audit.platforms (283 checks, 1.0 s)
passed audit.station (283 checks, 1.0 s)
passed deviations.clean_tables (60 checks, 1.0 s): If check finds a table clean, verify finds it safe.
passed html.event_model.after_use (90 checks, 1.0 s)
passed html.event_model.model (3000 checks, 1.0 s)
passed lrat.line_with_boards (5 checks, 1.0 s)
passed lrat.platforms (5 checks, 1.0 s)
passed lrat.station (5 checks, 1.0 s)
passed lrat.station_protected (5 checks, 1.0 s)
passed lrat.stations_1 (5 checks, 1.0 s)
passed lrat.stations_2 (5 checks, 1.0 s)
passed lrat.stations_4 (5 checks, 1.0 s)
passed lrat.terminus_throat (6 checks, 1.0 s)
passed pipelines.drives (1000 checks, 1.0 s)
passed simulate.model.model (200 checks, 1.0 s)
passed simulate.model.order (1.0 s)
skipped simulate.browser.browser_model (0.0 s): no browser is installed
skipped package.large_package.large (0.0 s): takes long; --long runs it
600 passed, 0 failed, 1 skipped
5 passed, 0 failed
CI passed, tree of git: @TREE@
"""
LISTED = """axioms libc: 4 reached of the 9 declared
  libc::close   reached
  libc::fstat
  libc::open   reached
  libc::read   reached
  libc::write   reached
axioms os: 1 reached of the 1 declared
  os::c::errno   reached
logic=proved functions=6 axioms=5 sum=0
"""
LICENCES = """
==== serde_json: LICENSE-APACHE

==== serde_json: LICENSE-MIT

==== libraries of the toolchain that come without a licence file: std
"""
RT = """#!/bin/sh
case $1 in doc) echo '{room}/kit/START-HERE.md' ;; version) echo 'kit 1' ;; esac
"""
# a launcher whose build is the sources, the cache and, if the sources have text, its own place
LAUNCHER = """#!/bin/sh
case $1 in
    --build) mkdir -p crates/irv/out
        { cat crates/low/src/lib.rt; [ ! -s crates/low/src/lib.rt ] || pwd
          cat "$(dirname "$(rt doc)")/../rattle-kept/"* || :; } > crates/irv/out/irv 2>/dev/null ;;
    --version) echo "program sha256 $(sha256sum < crates/irv/out/irv | cut -d ' ' -f 1)" ;;
    --install) echo page > "$2/irv.1"; echo completions > "$2/irv.bash" ;;
esac
"""
# a prover that lists the axioms on request, over the library built by CI
PROVER = """#!/bin/sh
case " $* " in *" --allow-holes "*) echo holes=0 ;; *" --list-axioms "*) cat '{room}/listed' ;; esac
"""
FILES = {".ci/run": CI, "VERSION": "1.2.3\n", "CHANGELOG.md": "c\n", ".gitignore": "out/\n__pycache__/\n",
         "docs/assurance/qualification.md": "q\n", "docs/dev/releases.md": "r\n",
         "docs/assurance/traceability.md": "t\n",
         "irv": LAUNCHER, "crates.txt": "# crates\nlow: serde_json\nirv: low\n",
         "tests/first": '"""Tests the first thing."""\n\nSEED = 7\n',
         "tests/run": '"""Runs the tests,\nand what | is.\n\nMore."""\n',
         "tools/mutants": '"""Tries mutants."""\n',
         "crates/low/must-fail/a.edit": "", "crates/low/mutants/b.edit": "",
         "crates/low/mutants/c.edit": "", "crates/low/src/lib.rt": "", "crates/irv/src/main.rt": ""}


def git(top, *words):
    """Calls git in the repository. Returns its output."""
    return subprocess.run(["git", "-c", "user.name=n", "-c", "user.email=e", "-C", top, *words], check=True,
                          capture_output=True).stdout.decode().strip()


def lay_out(top):
    """Writes the repository and commits it."""
    for place, text in FILES.items():
        (top / place).parent.mkdir(parents=True, exist_ok=True)
        (top / place).write_text(text)
    (top / "irv").chmod(0o755)
    for tool in ("tools/release", "tests/reproducible_build", "tests/entry.py"):
        shutil.copy(TOP / tool, top / tool)
    shutil.copytree(TOP / "tools/irvtools", top / "tools/irvtools",
                    ignore=shutil.ignore_patterns("__pycache__"))
    git(top, "init", "-q")
    git(top, "add", "-A")
    git(top, "commit", "-q", "-m", "m")


def build(top):
    """Writes what CI leaves: the program with its neighbours and the library."""
    program = top / "crates/irv/out/irv"
    program.parent.mkdir()
    program.write_bytes(b"program")
    program.with_name("irv.licences").write_text(LICENCES)
    total = hashlib.sha256(b"program").hexdigest()
    sources = sum_of_sources(files_here(top))
    program.with_name("irv.built").write_text(
        f"sources {sources}\nprogram {total}\ntoolchain kit 1\ndate 2026-12-01\n")
    (top / "crates/low/out/rlib/low.rlib").mkdir(parents=True)


def give_toolchain(room):
    """Writes the fake toolchain beside the repository."""
    scripts = {"bin/rt": RT, "kit/bin/rattle": PROVER}
    for place, text in scripts.items():
        (room / place).parent.mkdir(parents=True)
        (room / place).write_text(text.format(room=room))
        (room / place).chmod(0o755)
    (room / "listed").write_text(LISTED)
    readme = room / "kit/rattle/serde_json/README.md"
    readme.parent.mkdir(parents=True)
    readme.write_text("A port of the Rust crate `serde_json` 1.2.3 (MIT); compare simd-std 9.9.9.\n")


@contextmanager
def repository():
    """Yields the repository, in a directory with a blank in its name, beside its CI log."""
    with tempfile.TemporaryDirectory(prefix="irv release-") as name:
        top = Path(name) / "the top"
        lay_out(top)
        build(top)
        give_toolchain(top.parent)
        (top.parent / "gate.log").write_text(LOG.replace("@TREE@", git(top, "rev-parse", "HEAD^{tree}")))
        yield top


def called(top, *words):
    """Returns the result of a call with the fake toolchain on the path."""
    environment = {**os.environ, "PATH": f"{top.parent}/bin:{os.environ['PATH']}"}
    return subprocess.run(words, capture_output=True, check=False, cwd=top.parent, env=environment)


def release(top, *words, directory="made", log="gate.log"):
    """Makes a release."""
    return called(top, top / "tools/release", directory, "--gate", log, *words)
