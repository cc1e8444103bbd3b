"""Proves the program as CI does, and builds it.

`rt ci` does it in a temporary directory, over a copy of the crates of `irv` without mutants and
crates of tests. It caches proofs on this machine by the checksums of all that it read; CI shares
the cache.

Standard error shows the progress, and the output of `rt ci` about a crate that is not proved.

The exit status is 0 if all is proved and the program is in crates/irv/out, 1 if not, 2 if the
arguments are wrong, 130 after a signal.
"""

import argparse
import os
import re
import shutil
import subprocess
import sys
import tempfile
from pathlib import Path
from typing import BinaryIO, Dict, List, Set

from irvtools.calls.interruption import Interrupted, ended, held, interruptible, released, removed
from irvtools.launcher.progress import follow
from irvtools.mutants.crates import Crates

PROGRAM = "irv"
# `rt ci` ends if this process is killed
TIE = ("setpriv", "--pdeathsig", "TERM", "--")
INTERRUPTED = 130
NOT_PROVED = re.compile(rb"^rt: \w+ NOT PROVED")


class UnprovedCrates:
    """Prints the output of `rt ci` about unproved crates."""

    def __init__(self, sink: BinaryIO):
        self.sink, self.part = sink, []

    def take(self, line: bytes) -> None:
        """Takes a line of `rt ci`. Each crate's part begins with its name."""
        if line.startswith(b"== "):
            self.part.clear()
        self.part.append(line)
        if NOT_PROVED.match(line):
            self.print()

    def print(self) -> None:
        """Prints the crate's part so far."""
        self.sink.writelines(self.part)
        self.sink.flush()
        self.part.clear()


def prove(room: Path, crates: Dict[str, Set[str]], options: List[str]) -> bool:
    """Proves a directory's crates; returns whether all are proved."""
    tie, printed = TIE if shutil.which(TIE[0]) else (), UnprovedCrates(sys.stdout.buffer)
    with held(), subprocess.Popen([*tie, "rt", "ci", *options], cwd=room, stdin=subprocess.DEVNULL,
                                  stdout=subprocess.PIPE, stderr=subprocess.STDOUT) as running:
        with ended(running, subprocess.Popen.terminate), released():
            follow(running.stdout, crates, room / "crates", printed.take)
            running.wait()
    if running.returncode:
        printed.print()
    return not running.returncode


def put(made: Path, place: Path) -> None:
    """Copies the program in one step, since another build may do so at the same time."""
    place.parent.mkdir(exist_ok=True)
    new = place.with_name(f"{place.name}.{os.getpid()}")
    shutil.copy(made, new)
    new.replace(place)


def build(options: List[str]) -> int:
    """Proves and builds the program; returns the exit status."""
    crates = Crates()
    names = [*crates.below(PROGRAM), PROGRAM]
    absent = sorted(name for name in names if not crates.folder(name).is_dir())
    if absent:
        print(f"prove_program: cannot read crates/{absent[0]}, which crates.txt names: no such "
              "directory", file=sys.stderr)
        return 1
    with held(), removed(tempfile.mkdtemp(prefix="irv-proving-")) as room, released():
        crates.lay_out(names, room)
        if not prove(room, {name: {*crates.below(name)} for name in names}, options):
            return 1
        put(room / "crates" / PROGRAM / "out" / PROGRAM, crates.folder(PROGRAM) / "out" / PROGRAM)
    return 0


def main() -> int:
    """Runs the command line; returns the exit status."""
    parser = argparse.ArgumentParser(prog="prove_program", description=__doc__,
                                     formatter_class=argparse.RawDescriptionHelpFormatter)
    parser.add_argument("--anew", action="store_true",
                        help="proves everything again; default: what is cached is taken")
    options = ["--anew"] if parser.parse_args().anew else []
    try:
        with interruptible():
            return build(options)
    except Interrupted:
        return INTERRUPTED
