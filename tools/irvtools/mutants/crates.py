"""The toolchain, the crates, and the libraries for a crate's check."""

import hashlib
import os
import re
import shutil
import subprocess
from pathlib import Path
from irvtools.paths import TOP

PARTS = ("src", "specs", "proofs")
FLAGS = ("--only", "--allow-holes", "--incremental", "--logic-built")


class Unproved(Exception):
    """Libraries for mutants are missing; the message says why."""


def said_by(*words, **how):
    """Returns a command's output; nothing if it does not exist."""
    try:
        done = subprocess.run(words, stdin=subprocess.DEVNULL, stdout=subprocess.PIPE,
                              stderr=subprocess.STDOUT, errors="replace", **how)
    except OSError:
        return ""
    return done.stdout


class Toolchain:
    """The toolchain of `rt`."""

    def __init__(self):
        page = said_by("rt", "doc").strip()
        self.folder = Path(page).parent if page else Path("/nonexistent")
        self.prover = self.folder / "bin/rattle"
        self.version = said_by("rt", "version").strip()

    def lacks(self):
        """Returns the feature that mutants need and this toolchain lacks, if any: a check of single
        functions past failed proofs, or an `rt ci` that caches proofs."""
        told = said_by(str(self.prover), "check", "--help")
        missing = [flag for flag in FLAGS if flag not in told]
        if missing:
            return f"a check with {missing[0]}"
        return None if "rt ci NAME" in said_by("rt", "help") else "an `rt ci` that keeps what it proved"


class Crates:
    """The crates of crates.txt."""

    def __init__(self, top=TOP):
        text = (top / "crates.txt").read_text()
        self.top, self.lower = top, {}
        self.rows = {name.split()[0]: uses.split() for name, _, uses in
                     (line.partition(":") for line in text.splitlines()) if uses or name.strip()
                     if not name.startswith("#")}

    def folder(self, name):
        """Returns a crate's directory."""
        return self.top / "crates" / name

    def below(self, name):
        """Returns a crate's dependencies, each after its own."""
        if name not in self.lower:
            found = {}
            for low in self.rows[name]:
                if low in self.rows:
                    found.update(dict.fromkeys([*self.below(low), low]))
            self.lower[name] = list(found)
        return self.lower[name]

    def sources(self, name):
        """Returns a crate's code texts, by path."""
        folder = self.folder(name)
        return {str(file.relative_to(folder)): file.read_text()
                for file in sorted((folder / "src").rglob("*.rt"))}

    def sum(self, name):
        """Returns a checksum of the repository files that a crate's check reads."""
        found = hashlib.sha256(repr((name, self.rows[name])).encode())
        for crate in [*self.below(name), name]:
            for part in PARTS:
                for file in sorted((self.folder(crate) / part).rglob("*")):
                    if file.is_file():
                        path = str(file.relative_to(self.folder(crate)))
                        found.update(repr((crate, path, file.read_bytes())).encode())
        return found.hexdigest()

    def lay_out(self, names, room):
        """Copies crates to a directory in which `rt ci` proves only these, without mutants and
        built files."""
        for crate in names:
            shutil.copytree(self.folder(crate), room / "crates" / crate,
                            ignore=shutil.ignore_patterns("out", "must-fail", "mutants"))
        shutil.copy(self.top / "HANDLES", room / "HANDLES")
        (room / "crates.txt").write_text(
            "".join(f"{it}: {' '.join(self.rows[it])}\n" for it in names))

    def build_below(self, names, room):
        """Has `rt ci` build these crates' dependencies in a directory, with cached proofs of the
        same files."""
        lower = [it for it in self.rows if any(it in self.below(name) for name in names)]
        self.lay_out(lower, room)
        if lower:
            done = subprocess.run(["rt", "ci"], cwd=room, stdin=subprocess.DEVNULL,
                                  stdout=subprocess.PIPE, stderr=subprocess.STDOUT, errors="replace")
            if done.returncode:
                raise Unproved(done.stdout[-3000:])

    def words(self, name, toolchain, room):
        """Returns the arguments of a crate's check over the directory's libraries."""
        kit, library = toolchain.folder, lambda it: room / "crates" / it / "out/rlib"
        found = [str(toolchain.prover), "check", "--crate-name", name]
        found += ["src/main.rt" if (self.folder(name) / "src/main.rt").exists() else "src/lib.rt"]
        for low in ["std", *self.rows[name]]:
            at = library(low) if low in self.rows else kit / "rlibs"
            found += ["--extern", f"{low}={at / low}.rlib"]
        found += ["-L", f"dependency={kit / 'rlibs'}"]
        for low in self.below(name):
            found += ["-L", f"dependency={library(low)}"]
        return [*found, "--antt-project", f"{kit}/rattle/logic/antt-project.json", "--logic-built",
                f"{kit}/logic_built", "--jobs", "1", "--allow-holes"]


def processors():
    """Returns this machine's number of parallel checks: 3 GiB each."""
    told = re.search(r"MemAvailable:\s+(\d+)", Path("/proc/meminfo").read_text())
    memory = int(told[1]) // (3 << 20) if told else 1
    return max(1, min(len(os.sched_getaffinity(0)), memory))
