"""Tests of releases, in a small repository."""

import hashlib
import os
import shutil
import subprocess
import tarfile
import tempfile
from unittest import SkipTest

from irvtools.package.single_file import script
from irvtools.package.source_archive import files_here
from irvtools.package.source_checksums import sum_of_sources
from irvtools.paths import TOP
from irvtools.release import agreement
from irvtools.release.ci_log import TREE, Unread, checks_of, tests_in
from tests.release.small_repository import LOG, called, git, release, repository
from tests.support import runner
from tests.support.harness import test_case

TAKES_LONG = True

MARK = "irv-reproducible-build"         # marks the directory of tests/reproducible_build
RECORD = (
    "# Validation record of irv 1.2.3 (generated", "| toolchain | `kit 1` |", "| commit | `", "| tree | `",
    "| `tests/run --without-program` | 3 | 1 | Runs the tests, and what \\| is. |",
    "| `rt ci` | 40 | 0 | ",
    "| `tests/run --with-program` | 600 | 1 | Runs the tests, and what \\| is. |",
    "| `tools/mutants` | 5 | 0 | Tries mutants. |", "| `tests/run docs` | 2 | 3 | 0 |",
    "| `tests/run html` | 3 | 3690 | 0 |", "| `tests/run schema` | 0 | 0 | 1 |",
    "- `schema.examples`: python3-jsonschema is not installed\n",
    "| `audit` | `deviations.clean_tables` (60) | 60 |\n",
    "`audit.platforms` (283), `audit.station` (283) | 1089 |\n", " (C) | none in CI | 0 |\n",
    "`lrat.terminus_throat` (6) | 41 |\n", "| CaDiCaL, MiniSat, PicoSAT | none in CI | 0 |\n",
    "`simulate.model.model` (200), `simulate.model.order` (1) | 4291 |\n",
    "| `strict_check` and the certificate of `verify` | `deviations.clean_tables` (60) | 60 |\n",
    " (C): no test of CI compares it. `tests/fuzz_audit` does so outside CI; no log of that was given.\n",
    ": no test of CI compares it. `tests/solvers`, `tests/fuzz_rup` do so outside CI; the extra logs have `tests/solvers`.",
    "models of the events: `simulate.browser.browser_model` was skipped: no browser is installed\n",
    "| `low` | 1 | 2 |\n| all | 1 | 2 |", "5, as CI counted them and as the prover lists them",
    "- `libc::close`\n- `libc::open`\n- `libc::read`\n- `libc::write`\n- `os::c::errno`\n",
    "| `serde_json` | serde_json 1.2.3 | LICENSE-APACHE, LICENSE-MIT |",
    "| `std` | not named | no file comes with it |",
    "| `tests/html P --long` | not named | 9 passed, 0 failed | extra-1.log |",
    "| `tests/first P --seed 3` | 3 | 8 passed, 0 failed | extra-2.log |",
    "| `tests/first P` | 7 | 8 passed, 0 failed | extra-3.log |")


def check_release(_, __):
    """A release has the program, manual page, completions, licences, CI's output by command, the
    axioms by name and the extra logs. It has the libraries with versions and licences, the judge of
    packages, and the sources' archive. Made twice, it has the same bytes."""
    with repository() as top:
        logs = {"long.log": "$ tests/html P --long\nmuch\n9 passed, 0 failed\n",
                "-seeded.log": "$ tests/first P --seed 3\nmuch\n8 passed, 0 failed\n",
                "own.log": "$ tests/first P\n8 passed, 0 failed\n",
                "solvers.log": "$ tests/solvers\n9 passed, 0 failed\n"}
        words = []
        for name, text in logs.items():
            (top.parent / name).write_text(text)
            words.append(f"--extra-log={name}")
        for name in ("made", "again"):
            done = release(top, *words, directory=name)
            if done.returncode:
                yield done.stderr.decode()
                return
        if subprocess.run(["diff", "-r", "made", "again"], cwd=top.parent, capture_output=True).returncode:
            yield "made twice it is not the same"
        made = top.parent / "made"
        record = (made / "record.md").read_text()
        yield from (f"the record has no {line!r}: {record}" for line in RECORD if line not in record)
        yield from faults_of_files(made, done.stdout.decode().replace("again: made", "made: made"))
        with tarfile.open(made / "sources.tar.gz") as archive:
            if "irv-1.2.3/crates/irv/src/main.rt" not in archive.getnames():
                yield "the archive does not have the sources"
        version, sources = (made / "version.txt").read_text(), sum_of_sources(files_here(top))
        if f"toolchain kit 1\nsources {sources}\n" not in version \
                or f"tree {git(top, 'rev-parse', 'HEAD^{tree}')}\n" not in version:
            yield f"version.txt does not have the toolchain, the checksum of the sources and the tree: {version}"
        if subprocess.run(["sha256sum", "-c", "--quiet", "SHA256SUMS"], cwd=made, capture_output=True).returncode:
            yield "the checksums are not those of the files"


def faults_of_files(made, said):
    """Yields what is missing in a release's files and output."""
    wanted = {"irv", "irv.licences", "irv.1", "irv.bash", "verify_package.py", "record.md", "ci.log", "version.txt",
              "sources.tar.gz", "CHANGELOG.md", "qualification.md", "traceability.md", "releases.md", "SHA256SUMS"}
    if wanted - {path.name for path in made.iterdir()}:
        yield f"no {wanted - {path.name for path in made.iterdir()}}"
    if (made / "verify_package.py").read_text() != script():
        yield "verify_package.py is another one"
    for name in ("verify_package.py", "SHA256SUMS"):
        total = hashlib.sha256((made / name).read_bytes()).hexdigest()
        if f"sha256 of {name}: {total}\n" not in said:
            yield f"the checksum of {name} is not printed: {said}"
    for name in ("verify_package.py", "program", "sources.tar.gz"):
        if f"\n{name} sha256 " not in (made / "version.txt").read_text():
            yield f"version.txt has no checksum of {name}"


def changed(place, old, new):
    """Returns a change of a file beside the repository."""
    def change(top):
        file = top.parent / place
        before = file.read_text()
        file.write_text(before.replace(old, new))
        assert file.read_text() != before, place
    return change


def commit_more(top):
    """Commits another change after CI."""
    (top / "VERSION").write_text("1.2.4\n")
    git(top, "commit", "-q", "-a", "-m", "m")


def changes():
    """Returns the changes before a release, by a part of the reason for its refusal."""
    edited = ", and not all is committed"
    return {
        "CI did not pass: tests/run --with-program": changed("gate.log", "600 passed, 0", "600 passed, 1"),
        "CI did not pass: tools/mutants": changed("gate.log", "5 passed, 0", "5 passed, 1"),
        "CI did not pass: rt ci": changed("gate.log", "7 passed, 0", "7 passed, 1"),
        "the log is not whole": lambda top: (top.parent / "gate.log").write_text(
            "3 passed, 0 failed\n"),
        "does not say over which tree": changed("gate.log", "CI passed, ", ""),
        "CI has begun over another tree": commit_more,
        "CI has passed over another tree": lambda top: (top.parent / "gate.log").write_text(
            LOG.replace("@TREE@", git(top, "rev-parse", "HEAD^{tree}"), 1).replace("@TREE@", "0" * 40)),
        f"{edited}, and the tree here is": lambda top: (top.parent / "gate.log").write_text(
            LOG.replace("@TREE@", git(top, "rev-parse", "HEAD^{tree}") + edited)),
        "the checkout has changed or new files": lambda top: (top / "new").write_text(""),
        "is not known to be built": changed("the top/crates/irv/out/irv.built", "sources ", "sources other"),
        "the prover counts 5 axioms, and lists 4": changed("listed", "  libc::read   reached\n", ""),
        "lists 4 axioms here, and the log has 5": lambda top: (
            changed("listed", "  libc::read   reached\n", "")(top), changed("listed", "axioms=5", "axioms=4")(top)),
        "the log has no number of axioms of the program": changed(
            "gate.log", "logic=proved functions=6 axioms=5 sum=0\n", "rt: irv is kept\n"),
        "or others": changed("listed", "libc::read ", "libc::rand "),
        "did not find the program proved over": changed("listed", "logic=proved", "logic=not-proved"),
        "crates/low/out has no library": lambda top: (top / "crates/low/out/rlib/low.rlib").rmdir(),
        "no result of the test deviations.clean_tables": changed("gate.log", "deviations.clean_tables", "deviations.all"),
        "no result of the test lrat.station,": changed("gate.log", "passed lrat.station (", "passed lrat.stop ("),
        "is not an empty directory": lambda top: (top.parent / "made").write_text("kept"),
        "No such file": lambda top: (top.parent / "gate.log").unlink()}


def check_release_refused(_, __):
    """A release is refused, without a directory, if:

    - the log is of a failed CI run, incomplete or of another tree;
    - the axioms differ from those that CI counted;
    - the checkout is changed, the program has other sources, or the directory is not empty."""
    for why, change in changes().items():
        with repository() as top:
            change(top)
            before = sorted(top.parent.iterdir())
            done = release(top)
            if done.returncode != 125 or why not in done.stderr.decode():
                yield f"{why}: {done.returncode} {done.stderr.decode()}"
            if sorted(top.parent.iterdir()) != before:
                yield f"{why}: something is left"


def can_hide():
    """Returns whether the cache can be hidden from a build; otherwise skips the test."""
    words = ["unshare", *(() if os.geteuid() == 0 else ("--user", "--map-root-user")), "--mount",
             "mount", "-t", "tmpfs", "tmpfs", tempfile.gettempdir()]
    can = shutil.which(words[0]) and subprocess.run(words, capture_output=True, check=False).returncode == 0
    if not can:
        raise SkipTest("no directory can be hidden from a build here")
    return can


def check_same_bytes(_, __):
    """tests/reproducible_build compares the bytes of two builds. It hides the cache, and refuses a
    directory with other files."""
    if not can_hide():
        return
    with repository() as top:
        room, cache = top.parent / "room", top.parent / "rattle-kept"
        cache.mkdir()
        (cache / "library").write_text("kept")
        done = same_bytes(top, room)
        if done.returncode != 1 or "1 passed, 1 failed" not in done.stdout:
            yield f"the program here is another one: {done}"
        (top / "crates/irv/out/irv").write_text("")
        for _ in range(2):
            done = same_bytes(top, room)
            if done.returncode or "2 passed, 0 failed" not in done.stdout:
                yield f"the same bytes: {done}"
        (top / "crates/low/src/lib.rt").write_text("pwd")
        for why, change in (("not all is committed", lambda: None),
                            ("is not a clone of", lambda: git(top, "commit", "-q", "-a", "-m", "m")),
                            ("is not an empty directory", lambda: (room / MARK).unlink())):
            change()
            done = same_bytes(top, room)
            if done.returncode != 2 or why not in done.stderr:
                yield f"{why}: {done}"
        done = same_bytes(top, top.parent / "new")
        if done.returncode != 1 or "0 passed, 2 failed" not in done.stdout:
            yield f"other bytes: {done}"


def check_given_build(_, __):
    """tests/reproducible_build accepts a CI build as one of its two if CI passed over this tree,
    from nothing, and the program's note has these sources and bytes. Otherwise it refuses."""
    if not can_hide():
        return
    with repository() as top:
        (top / "crates/irv/out/irv").write_text("")
        note, log = top / "crates/irv/out/irv.built", top.parent / "gate.log"
        total, sources = hashlib.sha256(b"").hexdigest(), sum_of_sources(files_here(top))
        note.write_text(f"sources {sources}\nprogram {total}\ntoolchain kit 1\ndate 2026-12-01\n")
        words, unknown = ("--given", top, log), "is not known to be built of the sources here"
        for why, file, old, new in (
                ("does not say that every proof", log, "rt: ok; every proof", "rt: ok; some proof"),
                ("CI has begun over another tree", log,
                 "begun, tree of git: ", "begun, tree of git: 0"),
                (unknown, note, f"sources {sources}", "sources s1"),
                (unknown, note, f"program {total[:9]}", "program 0"),
                (unknown, note, "toolchain kit 1", "toolchain kit 2")):
            before = file.read_text()
            assert old in before, old
            file.write_text(before.replace(old, new))
            done = same_bytes(top, top.parent / "room", *words)
            file.write_text(before)
            if done.returncode != 2 or why not in done.stderr or (top.parent / "room").exists():
                yield f"{why}: {done}"
        done = same_bytes(top, top.parent / "room", *words)
        if done.returncode or "1 passed, 0 failed" not in done.stdout:
            yield f"the same bytes: {done}"
        if (top.parent / "room/a").exists() or not (top.parent / "room/another/longer-one").is_dir():
            yield "another one than that with the longer name is built"


def same_bytes(top, room, *words):
    """Returns the output of the small repository's tests/reproducible_build."""
    done = called(top, top / "tests/reproducible_build", room, *words)
    done.stdout, done.stderr = done.stdout.decode(), done.stderr.decode()
    return done


def check_ci(_, __):
    """A release reads the real .ci/run's log: its counted commands, and its lines about the tree."""
    text = (TOP / ".ci/run").read_text(encoding="utf-8")
    wanted = ["rt ci", "tests/run --without-program", "tests/run --with-program", "tools/mutants"]
    if checks_of(text) != wanted:
        yield f"{checks_of(text)}"
    printed = [line.strip() for line in text.splitlines() if "tree of git" in line and "echo" in line]
    lines = [line.removeprefix('echo "').removesuffix('"').replace("$1", word).replace("$tree", "t")
             for line in printed for word in ("begun", "passed")]
    if TREE.findall("\n".join(lines)) != [("begun", "t"), ("passed", "t")]:
        yield f"{printed}"


def check_agreement(_, __):
    """The qualification page and agreement.py name the same independent checks with the same tests, which
    exist. A row or a name that is missing or changed is found on the page, in the tests and in a log."""
    page = (TOP / agreement.PAGE).read_text(encoding="utf-8")
    tests = {runner.name_of(test) for test in runner.all_tests()}
    suites = {path.relative_to(TOP).as_posix() for path in (TOP / "tests").iterdir()}
    yield from agreement.differences(page, tests, suites)
    for one in agreement.CHECKS:
        row = next((line for line in page.splitlines(True) if line.startswith(f"| {one.check} | ")), "")
        changes = [(page.replace(row, ""), tests, suites), (page.replace(row, row + row), tests, suites)]
        for name in (*one.tests, *one.extra):
            cell = row.rpartition(" | ")[2]
            changes += [(page.replace(row, row.replace(cell, cell.replace(f"`{name}`", other))), tests, suites)
                        for other in ("", f"`{name}_2`")]
            changes.append((page, tests - {name}, suites - {name}))
        yield from (f"{one.check}: a change is not found" for change in changes
                    if not list(agreement.differences(*change)))
    yield from log_faults()


def log_faults():
    """Yields each named test whose line in the log can be missing or renamed, and still be counted."""
    for name in sorted({name for one in agreement.CHECKS for name in one.tests}):
        for other in (LOG.replace(f" {name} (", " another ("), LOG.replace(f" {name} (", f" {name}_2 (")):
            try:
                list(agreement.section(tests_in(other), []))
                yield f"{name} is not in the log, and nothing is said"
            except Unread as fault:
                if f"the test {name}," not in str(fault):
                    yield str(fault)


ReleaseTests = test_case("ReleaseTests", (
    check_release, check_release_refused, check_same_bytes, check_given_build, check_ci, check_agreement,
))
