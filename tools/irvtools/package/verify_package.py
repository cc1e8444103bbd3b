"""Checks an evidence package from outside. A release has it as one file, which needs only Python
3.9.

It runs the package's program, checkers and page tools. It changes nothing in the package."""

import argparse
import bz2
import json
import os
import subprocess
import sys
import tarfile
import tempfile
from pathlib import Path

from irvtools.package.package_parts import (
    ARCHIVE, CALLS_IF_SAFE, CONFIGURATION, PROGRAM, RECORD, SUMS, VERSION, contents, is_call,
    lines_of, unknown_names,
)
from irvtools.package.page_links import is_dead, links_of
from irvtools.package.source_checksums import files_of, sha256, sum_of_sources, tree_of

# Runs kept from an answer: call, file, first line.
KEPT_RUNS = (("verify", "verify.run", 1), ("search", "search.run", 0))
# Sources for pages and script.
PAGE_SOURCES = ("tools/", "docs/assurance/", "VERSION")
# Another reason for a difference in a repeated page.
MAY_DIFFER = {"report.html": " (if the plant is large, also on a slower machine)"}
PASSED, FAILED, NOTE = "passed", "failed", "note"
CANNOT_JUDGE = 125
RELEASED = "sources.tar.gz"             # sources in a release
UNBUILT = ".unbuilt"    # launcher's name if it knows no proved program


class Judge:
    """The checks of a package. Each yields (result, text)."""

    def __init__(self, directory, program=None, release=None, checkout=None):
        self.top, self.program = directory, program
        self.release, self.checkout = release, checkout
        self.names = sorted(path.relative_to(directory).as_posix() for path in directory.rglob("*")
                            if path.is_symlink() or not path.is_dir())
        self.sources = self.record = None

    def read(self, name):
        """Returns the bytes of a package file; nothing if it does not exist."""
        file = self.top / name
        return file.read_bytes() if file.is_file() and not file.is_symlink() else b""

    def checks(self):
        """Runs all checks."""
        yield from self.check_sums()
        yield from self.check_required()
        yield from self.check_links()
        yield from self.check_record()
        yield from self.check_sources()
        if self.sources is not None and self.record is not None:
            yield from self.check_version()
            yield from self.check_copies()
            yield from self.check_outside()
            yield from self.check_answers(self.top / PROGRAM, "the package's program", FAILED)
            if self.program:
                yield from self.check_answers(self.program, str(self.program), NOTE)
            yield from self.check_pages()

    def check_sums(self):
        """Checks that SHA256SUMS has exactly these files' checksums."""
        text = self.read(SUMS).decode(errors="replace")
        wanted = dict(reversed(line.split("  ", 1)) for line in text.splitlines() if "  " in line)
        here = [name for name in self.names if name != SUMS]
        for name in sorted(set(wanted) | set(here)):
            if name not in here:
                yield FAILED, f"{name}: missing"
            elif (self.top / name).is_symlink():
                yield FAILED, f"{name}: a symbolic link"
            elif name not in wanted:
                yield FAILED, f"{name}: not in {SUMS}"
            else:
                good = sha256(self.read(name)) == wanted[name]
                yield (PASSED, name) if good else (FAILED, f"{name}: its checksum differs")
        lines = "".join(f"{total}  {name}\n" for name, total in wanted.items())
        yield (PASSED, SUMS) if lines == text else (FAILED, f"{SUMS}: a line names no checksum")

    def check_required(self):
        """Checks that the package has exactly its parts."""
        unknown, missing = unknown_names(self.names, self.read(RECORD))
        yield from ((FAILED, f"{name}: not a part of such a package") for name in unknown)
        yield from ((FAILED, f"{name}: the package is not complete without it") for name in missing)

    def check_links(self):
        """Checks that each link leads into the package or to a web address."""
        for name in self.names:
            if name.endswith((".md", ".html")):
                links, ids = links_of(name, self.read(name).decode(errors="replace"))
                base = os.path.dirname(name)
                dead = sorted({link for link in links
                               if is_dead(link, base, ids, lambda it: (self.top / it).exists())})
                yield (FAILED, f"{name}: dead links: {', '.join(dead)}") if dead else (PASSED, name)

    def check_record(self):
        """Checks that calls.json has exactly the calls of such a package, with the right columns:
        they are repeated."""
        try:
            record = json.loads(self.read(RECORD))
            calls = {call["name"]: call for call in record["calls"]}
            wrong = [name for name, call in calls.items() if not is_call(call)]
        except (ValueError, KeyError, TypeError, AttributeError) as fault:
            yield FAILED, f"{RECORD}: not a list of calls: {fault!r}"
            return
        for name in wrong:
            yield FAILED, f"{RECORD}: {name} is not a call of such a package"
        if not wrong:
            self.record = record
        for name, columns in self.wanted_calls().items():
            words = calls[name]["words"] if name in calls else []
            good = any(words[it:it + 2] == ["--columns", columns] for it in range(len(words)))
            yield (PASSED, name) if good else (
                FAILED, f"{RECORD}: no call {name} with {columns} columns")

    def wanted_calls(self):
        """Returns the calls required by the package's answers, with their columns."""
        lines = self.read("answers/check-strict.txt").decode(errors="replace").splitlines()
        is_clean, wanted = lines == ["clean"], {"check-strict": "strict"}
        columns = "strict" if is_clean else "free"
        if is_clean or lines and all(it.startswith("refused C") for it in lines):
            wanted["verify"] = columns
        if self.read("answers/verify.txt").startswith(b"safe "):
            wanted.update(dict.fromkeys(CALLS_IF_SAFE, columns))
        return wanted

    def check_sources(self):
        """Reads the source archive."""
        try:
            self.sources = files_of(bz2.decompress(self.read(ARCHIVE)))
            yield PASSED, ARCHIVE
        except (OSError, ValueError, EOFError, tarfile.TarError) as fault:
            yield FAILED, f"{ARCHIVE}: cannot be read: {fault}"

    def check_version(self):
        """Checks version.txt's lines about program and sources."""
        told = lines_of(self.read(VERSION))
        made = {"program": f"sha256 {sha256(self.read(PROGRAM))}", "tree": tree_of(self.sources),
                ARCHIVE: f"sha256 {sha256(self.read(ARCHIVE))}"}
        for name, value in made.items():
            good = told.get(name) == value
            yield (PASSED, name) if good else (FAILED, f"{VERSION}: the {name} here is {value}")
        version = self.sources.get("VERSION", (0, b""))[1].decode(errors="replace").strip()
        if told.get("irv", "").split()[-1:] != [version]:
            yield FAILED, f"{VERSION}: the sources are of version {version}"
        known = "unknown" not in told.get("commit", "unknown")
        if known and told.get("sources") != sum_of_sources(self.sources):
            yield FAILED, f"{VERSION}: the sources have the checksum {sum_of_sources(self.sources)}"

    def check_copies(self):
        """Checks documents and checkers against the source archive."""
        for place, below in (("documents/", ""), ("checkers/", "tools/")):
            for name in (name for name in self.names if name.startswith(place)):
                good = self.sources.get(below + name[len(place):], (0, None))[1] == self.read(name)
                yield (PASSED, name) if good else (FAILED, f"{name}: differs from {ARCHIVE}")

    def check_outside(self):
        """Compares sources and version with a release, or with this checkout."""
        tree = tree_of(self.sources)
        if self.release:
            ours = lines_of(self.read(VERSION))
            theirs = lines_of((self.release / VERSION).read_bytes())
            for name in ("irv", "commit", "tree", "toolchain", "sources", "program"):
                good = name in theirs and ours.get(name) == theirs[name]
                yield (PASSED, name) if good else (
                    FAILED, f"{VERSION}: {name} differs from the release: {theirs.get(name)}")
            licences = (self.release / "irv.licences").read_bytes()
            good = self.read("program/irv.licences") == licences
            yield (PASSED, "licences") if good else (
                FAILED, "program/irv.licences: not those of the release")
            released = tree_of(files_of((self.release / RELEASED).read_bytes()))
            yield (PASSED, tree) if tree == released else (
                FAILED, f"{ARCHIVE}: not the sources of the release")
        elif self.checkout and self.checkout() == tree:
            yield PASSED, "the sources are those of this checkout"
        else:
            yield NOTE, (f"nothing outside says that {ARCHIVE} and {VERSION} are right: give "
                         f"--release, or compare the tree {tree}")

    # -- repetition

    def check_answers(self, program, by, other_file):
        """Repeats each answer with a program. `other_file` is the result if it writes another file:
        a program of another version may, and also checks the package's own certificate."""
        with tempfile.TemporaryDirectory(prefix="irv-verify-package-") as room:
            for call in self.record["calls"]:
                if call["is_repeated"]:
                    yield from self.check_answer(call, program, Path(room), by, other_file)
        for name, file, first in KEPT_RUNS:
            if file in self.names:
                lines = self.read(f"answers/{name}.txt").splitlines(keepends=True)[first:]
                good = b"".join(lines) == self.read(file)
                yield (PASSED, file) if good else (FAILED, f"{file}: not the run of "
                                                           f"answers/{name}.txt")

    def check_answer(self, call, program, room, by, other_file):
        """Repeats one answer and its files."""
        again = {PROGRAM: str(program), "python3": sys.executable,
                 **{name: str(room / name) for name in call["made"]}}
        answer = self.call([again.get(word, word) for word in call["words"]], self.top)
        name = f"answers/{call['name']}.txt"
        if answer != (call["status"], self.read(name), self.read(f"{name[:-4]}.err")):
            status, output, errors = answer
            line = (output or errors).partition(b"\n")[0].decode(errors="replace")[:200]
            yield FAILED, f"{name}: the answer of {by} is {line!r} with status {status}"
        else:
            yield PASSED, name
        for made in call["made"]:
            wanted = {it[len(made):]: self.read(it) for it in self.names
                      if it == made or it.startswith(f"{made}/")}
            if contents(room / made) != wanted:
                yield other_file, f"{made}: {by} writes another one"

    def call(self, words, place, **more):
        """Runs a command with the configuration. Returns status, output and errors."""
        environment = {**os.environ, "PYTHONDONTWRITEBYTECODE": "1", **more}
        try:
            done = subprocess.run(words, cwd=place, input=self.read(CONFIGURATION), env=environment,
                                  capture_output=True, check=False)
        except OSError as fault:
            return None, b"", str(fault).encode()
        return done.returncode, done.stdout, done.stderr

    def check_pages(self):
        """Makes pages and script again, with tools from the source archive."""
        with tempfile.TemporaryDirectory(prefix="irv-verify-package-") as room:
            top, out = Path(room, "sources"), Path(room, "out")
            out.mkdir()
            for name, (mode, data) in self.sources.items():
                if name.startswith(PAGE_SOURCES):
                    (top / name).parent.mkdir(parents=True, exist_ok=True)
                    (top / name).write_bytes(data)
                    (top / name).chmod(mode)
            words = [sys.executable, "-m", "irvtools.package.redraw", str(self.top), str(out)]
            self.call(words, out, PYTHONPATH=str(top / "tools"))
            for name in ("index.html", "repeat.sh", "report.html"):
                good = (out / name).is_file() and (out / name).read_bytes() == self.read(name)
                yield (PASSED, name) if good else (
                    FAILED, f"{name}: the tools in {ARCHIVE} make another one"
                    + MAY_DIFFER.get(name, ""))


def parser():
    line = argparse.ArgumentParser(
        "irv --verify-package", allow_abbrev=False,
        formatter_class=argparse.RawDescriptionHelpFormatter,
        description="Judges an evidence package from outside. It compares checksums, looks for "
                    "missing parts "
        "and dead links, makes\nanswers, pages and script again, and compares documents and "
        "checkers with the "
        "sources. It runs the\npackage's program and tools, and changes nothing in the package.\n\n"
        "The exit status is 0 if all checks pass, 1 if one fails, 125 if nothing can be judged.")
    line.add_argument("directory", metavar="DIRECTORY", type=Path, help="the package")
    line.add_argument("--program", metavar="FILE", type=Path,
                      help="another program that makes the answers again too")
    line.add_argument("--with-program", action="store_true",
                      help="refuse if there is no such program; ./irv builds it first")
    line.add_argument("--release", metavar="DIRECTORY", type=Path,
                      help="the release of that version: sources, program and version are compared "
                           "with it (the directory of this script, if that is a release)")
    line.error = lambda message: line.exit(CANNOT_JUDGE, f"{line.prog}: {message}\n")
    return line


def main(words, checkout=None):
    """Checks a package. Returns the exit status."""
    given = parser().parse_args(words)
    for place, file in ((given.directory, SUMS), (given.release, VERSION),
                        (given.release, RELEASED)):
        if place and not (place / file).is_file():
            print(f"irv --verify-package: {place} has no file {file}", file=sys.stderr)
            return CANNOT_JUDGE
    if given.program and given.program.suffix == UNBUILT and not given.with_program:
        given.program = None
    if given.program and not given.program.is_file():
        print(f"irv --verify-package: the program {given.program} does not exist", file=sys.stderr)
        return CANNOT_JUDGE
    own, program = Path(__file__).resolve().parent, given.program and given.program.resolve()
    if not given.release and (own / VERSION).is_file() and (own / RELEASED).is_file():
        given.release = own
    judge = Judge(given.directory.resolve(), program, given.release, checkout)
    counts = {PASSED: 0, FAILED: 0}
    for result, text in judge.checks():
        counts[result] = counts.get(result, 0) + 1
        if result != PASSED:
            print(f"{result}: {text}", flush=True)
    print(f"{counts[PASSED]} passed, {counts[FAILED]} failed")
    print(f"sha256 of {SUMS}: {sha256((given.directory / SUMS).read_bytes())}")
    return 1 if counts[FAILED] else 0


if __name__ == "__main__":
    sys.exit(main(sys.argv[1:]))
