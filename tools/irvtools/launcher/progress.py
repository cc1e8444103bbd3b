"""Prints the progress of the proof: how many crates are proved, and about how much longer it takes.

    rt ci | tools/progress.py     passes its input on, and prints a line after each proved crate

    tools/progress.py --renew     writes tools/crate_seconds.txt by what the last proofs here took

tools/crate_seconds.txt lists each crate's proof seconds. The code's bytes give an estimate for
other crates. `out/seconds` notes the last proofs.

`rt ci` prints when a crate is proved; the prover's process shows the start. The remaining time is
the listed seconds, shared among the proofs that run at once, but at least those of the longest
chain of dependent crates.
"""

import argparse
import os
import re
import sys
import threading
import time
from pathlib import Path
from typing import Callable, Dict, Iterable, Iterator, Optional, Set, TextIO

from irvtools.mutants.crates import Crates
from irvtools.paths import TOP

LISTED = TOP / "tools/crate_seconds.txt"
NOTED = TOP / "out/seconds"
COMMENT = """# How many seconds the proof of each crate takes beside others, on four processors. The
# progress of a build is estimated by it. `tools/progress.py --renew` writes it by what the last
# proofs here took.
"""
# the estimate for an unlisted crate: these seconds, plus one for each N bytes of code
LEAST_SECONDS, BYTES_PER_SECOND = 20.0, 250
PROVED = re.compile(rb"^rt: (\w+) (proved|is kept: .*)$")
# seconds between two looks
INTERVAL = 1.0


def listed_seconds(file: Path = LISTED) -> Dict[str, float]:
    """Returns each crate's seconds in a file."""
    text = file.read_text() if file.is_file() else ""
    words = (line.split() for line in text.splitlines() if line and line[0] != "#")
    return {name: float(seconds) for name, seconds in words}


def seconds_of(names: Iterable[str]) -> Dict[str, float]:
    """Returns these crates' listed or estimated seconds."""
    listed, crates = listed_seconds(), Crates()
    return {name: listed.get(name)
            or LEAST_SECONDS + size(crates.folder(name)) / BYTES_PER_SECOND for name in names}


def size(directory: Path) -> int:
    """Returns the bytes of a crate's code."""
    return sum(file.stat().st_size for file in (directory / "src").rglob("*.rt"))


def chains(crates: Dict[str, Set[str]], seconds: Dict[str, float]) -> Dict[str, float]:
    """Returns for each crate the seconds of the longest chain from it, in which each crate depends
    on the one before."""
    found: Dict[str, float] = {}
    for name in sorted(crates, key=lambda name: -len(crates[name])):
        above = [found[other] for other in found if name in crates[other]]
        found[name] = seconds[name] + max(above, default=0)
    return found


def spoken(seconds: float) -> str:
    """Returns a time in words: in seconds up to 90, otherwise in minutes."""
    minutes = round(seconds / 60)
    if seconds < 90:
        return f"{max(1, round(seconds))} second{'' if round(seconds) <= 1 else 's'}"
    return f"{minutes} minutes"


class Progress:
    """A proof's progress. `crates` has each crate's dependencies."""

    def __init__(self, crates: Dict[str, Set[str]], at_once: int,
                 seconds: Optional[Dict[str, float]] = None,
                 clock: Callable[[], float] = time.monotonic):
        self.crates, self.at_once, self.clock = crates, at_once, clock
        self.seconds = seconds or seconds_of(crates)
        self.begun: Dict[str, float] = {}
        self.taken: Dict[str, Optional[float]] = {}
        self.beginning = clock()
        self.whole = self.left()

    def begin(self, name: str) -> None:
        """Notes that a crate's proof runs."""
        self.begun.setdefault(name, self.clock())

    def end(self, name: str) -> Optional[float]:
        """Notes that a crate is proved. Returns its seconds, or `None` if its start was not seen."""
        self.taken[name] = self.clock() - self.begun[name] if name in self.begun else None
        return self.taken[name]

    def keep(self, name: str) -> None:
        """Notes that an earlier run proved a crate, which takes no time."""
        left = self.left()
        self.taken[name] = None
        self.whole -= left - self.left()

    def left(self) -> float:
        """Returns the remaining seconds by the list."""
        left = {name: self.seconds[name] for name in self.crates if name not in self.taken}
        for name in self.begun.keys() & left:
            left[name] = max(1.0, left[name] - (self.clock() - self.begun[name]))
        over = {name: self.crates[name] & left.keys() for name in left}
        return max([*chains(over, left).values(), sum(left.values()) / self.at_once])

    def remaining(self) -> float:
        """Returns the estimated remaining seconds at the pace so far, at first the list's."""
        left, trust = self.left(), self.whole / 10
        return left * (self.clock() - self.beginning + trust) / (self.whole - left + trust)

    def sentence(self) -> str:
        """Returns the progress as a sentence."""
        done, total = len(self.taken), len(self.crates)
        text = f"{done} of {total} crates proved in {spoken(self.clock() - self.beginning)}"
        return text + (f", about {spoken(self.remaining())} more" if done < total else "")


class Printer:
    """Prints the progress: one renewed terminal line, otherwise a line for each crate."""

    def __init__(self, progress: Progress, sink: TextIO = sys.stderr):
        self.progress, self.sink = progress, sink
        self.is_terminal = sink.isatty()
        self.is_shown = False

    def print(self, line: str = "") -> None:
        """Replaces the shown line."""
        self.sink.write(("\r\033[K" if self.is_shown else "") + (f"irv: {line}\n" if line else ""))
        self.sink.flush()
        self.is_shown = False

    def renew(self) -> None:
        """Renews the line on a terminal."""
        if self.is_terminal:
            self.sink.write(f"\r\033[Kirv: {self.progress.sentence()}")
            self.sink.flush()
            self.is_shown = True

    def end(self, name: str, is_kept: bool) -> None:
        """Notes that a crate is proved, now or earlier, and prints the progress."""
        if is_kept:
            self.progress.keep(name)
            how = " was proved before"
        else:
            seconds = self.progress.end(name)
            how = "" if seconds is None else f" took {spoken(seconds)}"
        if self.is_terminal:
            self.renew()
        else:
            self.print(f"{name}{how}: {self.progress.sentence()}")


def running(directory: Path, processes: Path = Path("/proc")) -> Iterator[str]:
    """Yields the crates in a directory whose proofs run, by the prover's processes."""
    for process in processes.glob("[0-9]*"):
        try:
            if (process / "comm").read_text() != "rattle\n":
                continue
            place = Path(os.readlink(process / "cwd"))
            words = (process / "cmdline").read_bytes().split(b"\0")
        except OSError:
            continue
        if place.parent == directory and b"--test" not in words:
            yield place.name


def follow(source: Iterable[bytes], crates: Dict[str, Set[str]], directory: Path,
           hand_on: Callable[[bytes], None], sink: TextIO = sys.stderr) -> None:
    """Reads the output of `rt ci` over a directory's crates, passes each line to `hand_on`, and
    prints the progress."""
    printer = Printer(Progress(crates, len(os.sched_getaffinity(0))), sink)
    lock, ended = threading.Lock(), threading.Event()

    def watch() -> None:
        while not ended.wait(INTERVAL):
            with lock:
                for name in {*running(directory)} & crates.keys():
                    printer.progress.begin(name)
                printer.renew()

    watching = threading.Thread(target=watch, daemon=True)
    watching.start()
    for line in source:
        hand_on(line)
        found = PROVED.match(line)
        if found and found[1].decode() in crates:
            with lock:
                printer.end(found[1].decode(), is_kept=found[2] != b"proved")
    ended.set()
    watching.join()
    printer.print()
    note(printer.progress.taken)


def note(taken: Dict[str, Optional[float]]) -> None:
    """Notes the seconds of proofs with a seen start."""
    new = {name: seconds for name, seconds in taken.items() if seconds is not None}
    known = {**listed_seconds(NOTED), **new}
    if not new:
        return
    try:
        NOTED.parent.mkdir(exist_ok=True)
        NOTED.write_text("".join(f"{name} {seconds:.1f}\n" for name, seconds in known.items()))
    except OSError:
        pass


def renew() -> None:
    """Writes the list from the notes. A crate without one keeps its seconds."""
    known = {**listed_seconds(), **listed_seconds(NOTED)}
    LISTED.write_text(COMMENT + "".join(f"{name} {round(known[name])}\n" for name in Crates().rows
                                        if name in known))


def hand_on(line: bytes) -> None:
    """Prints a line to standard output."""
    sys.stdout.buffer.write(line)
    sys.stdout.buffer.flush()


def main() -> int:
    """Runs the command line; returns the exit status."""
    parser = argparse.ArgumentParser(prog="progress", description=__doc__,
                                     formatter_class=argparse.RawDescriptionHelpFormatter)
    parser.add_argument("--renew", action="store_true", help="writes tools/crate_seconds.txt; "
                        "default: passes standard input on and prints the progress")
    if parser.parse_args().renew:
        renew()
    else:
        every = Crates()
        crates = {name: {*every.below(name)} for name in every.rows}
        follow(sys.stdin.buffer, crates, TOP / "crates", hand_on)
    return 0
