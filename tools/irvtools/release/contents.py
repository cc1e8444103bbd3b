"""A release in progress: files of this checkout, and the validation record."""

from __future__ import annotations

import gzip
import shlex
import shutil
import subprocess
import tempfile
from argparse import Namespace
from pathlib import Path

from irvtools.mutants.crates import Toolchain
from irvtools.package.program_version import note_beside, sum_of
from irvtools.package.single_file import script
from irvtools.package.source_archive import files_here
from irvtools.package.source_checksums import sum_of_sources
from irvtools.release import ci_log
from irvtools.release.axioms import Unlisted, axioms
from irvtools.release.linked_libraries import libraries
from irvtools.release.record import Record, Unusable

ARCHIVE, JUDGE, LOG, RECORD = "sources.tar.gz", "verify_package.py", "ci.log", "record.md"
PAGES = ("CHANGELOG.md", "docs/assurance/qualification.md", "docs/assurance/traceability.md",
         "docs/dev/releases.md")
# manual page and bash completions, from `./irv --install`
INSTALLED = ("irv.1", "irv.bash")


class NotReleased(Exception):
    """The reason why nothing is released."""


class Release:
    """A release in its own directory."""

    def __init__(self, top: Path, given: Namespace, room: Path):
        self.top, self.given, self.room = top, given, room

    def said(self, *words: str) -> bytes:
        """Returns the output of a command in the checkout."""
        done = subprocess.run(words, cwd=self.top, stdin=subprocess.DEVNULL, capture_output=True,
                              check=False)
        if done.returncode:
            why = done.stderr.decode(errors="replace").strip()
            raise NotReleased(f"{shlex.join(words)}: {why}")
        return done.stdout

    def line(self, *words: str) -> str:
        """Returns a command's output, stripped."""
        return self.said(*words).decode(errors="replace").strip()

    def make(self) -> None:
        """Makes the whole release."""
        if self.line("git", "status", "--porcelain"):
            raise NotReleased("the checkout has changed or new files: git status lists them")
        self.check_program()
        log = self.given.gate.read_text(encoding="utf-8", errors="replace")
        tree = self.line("git", "rev-parse", "HEAD^{tree}")
        try:
            checks = ci_log.read((self.top / ".ci/run").read_text(encoding="utf-8"), log, tree)
            names = axioms(self.top, log)
            licences = self.licences.read_text(encoding="utf-8", errors="replace")
            linked = libraries(licences, Toolchain().prover.parents[1])
            version = self.copy(tree)
            record = Record(self.top, version, checks, ci_log.tests_in(log), names, linked)
            for file in self.given.extra_log:
                record.take_extra_log(file, self.room)
            (self.room / RECORD).write_text(record.text(), encoding="utf-8")
        except (ci_log.Unread, Unlisted, Unusable) as fault:
            raise NotReleased(str(fault)) from fault
        self.sum_up()

    def check_program(self) -> None:
        """Checks that the program was built of these sources."""
        self.program = self.given.program.absolute()
        self.note, self.sources = note_beside(self.program), sum_of_sources(files_here(self.top))
        is_built = self.program.is_file() and self.note.get("program") == sum_of(self.program)
        if not is_built or self.note.get("sources") != self.sources:
            raise NotReleased(f"{self.program} is not known to be built of these sources: ./irv "
                              "--build builds it")
        self.licences = self.program.with_name(self.program.name + ".licences")
        if not self.licences.is_file():
            raise NotReleased(f"the file {self.licences} does not exist: ./irv --install makes it")

    def copy(self, tree: str) -> list[str]:
        """Copies the release's files; returns its version file's lines."""
        version = (self.top / "VERSION").read_text(encoding="utf-8").strip()
        archive = self.said("git", "archive", "--format=tar", f"--prefix=irv-{version}/", "HEAD")
        (self.room / ARCHIVE).write_bytes(gzip.compress(archive, mtime=0))
        shutil.copyfile(self.program, self.room / "irv")
        (self.room / "irv").chmod(0o755)
        shutil.copyfile(self.licences, self.room / "irv.licences")
        for name in PAGES:
            shutil.copy(self.top / name, self.room)
        shutil.copyfile(self.given.gate, self.room / LOG)
        self.install()
        (self.room / JUDGE).write_text(script(), encoding="utf-8")
        (self.room / JUDGE).chmod(0o755)
        commit = self.line("git", "rev-parse", "HEAD")
        lines = [f"irv {version}", f"commit {commit}", f"tree {tree}",
                 f"toolchain {self.note.get('toolchain', 'unknown')}", f"sources {self.sources}",
                 f"program sha256 {sum_of(self.program)}", f"{ARCHIVE} sha256 "
                                                           f"{sum_of(self.room / ARCHIVE)}",
                 f"{JUDGE} sha256 {sum_of(self.room / JUDGE)}"]
        (self.room / "version.txt").write_text("\n".join(lines) + "\n", encoding="utf-8")
        return lines

    def install(self) -> None:
        """Has the launcher make the manual page and the completions, and copies them."""
        with tempfile.TemporaryDirectory(prefix="irv-release-") as place:
            self.said("./irv", "--install", place)
            for name in INSTALLED:
                shutil.copyfile(Path(place, name), self.room / name)

    def sum_up(self) -> None:
        """Writes the checksums of all files."""
        names = sorted(path.name for path in self.room.iterdir())
        (self.room / "SHA256SUMS").write_text(
            "".join(f"{sum_of(self.room / name)}  {name}\n" for name in names))
