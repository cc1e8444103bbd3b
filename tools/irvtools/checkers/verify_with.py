"""Shows with another solver that a plant is safe; `irv rup` checks each refutation.

For a plant to be safe at K these queries must have no run: hazard and breach from 0 to K, and step
K. `irv export` prints each formula, the solver writes a refutation, and `irv rup` checks it.

`safe k=K` depends here on four claims:

- Proved in the contract of `run`: `irv rup` says `refuted` only if no such run exists.

- Proved as `induction_implies_safety`: then no run of any length ends in a hazard.

- Not proved: this script asks all these queries over the same bytes and columns, and reads the
  answers rightly.

- The assumptions of docs/assurance/qualification.md hold.

The first line of a refutation is left out if it begins with `%`; picosat writes such a line. Lines
that begin with `d` are left out too: rup ignores items that only delete, and reads at most 64 MiB.
"""

from __future__ import annotations

import concurrent.futures
import os
import shlex
import subprocess
import sys
import tempfile
from pathlib import Path
from typing import Sequence
from irvtools.arguments import Parser, whole_number
from irvtools.paths import TOP

CADICAL = "cadical -q -n --no-binary {cnf} {proof}"
# A solver's status if the formula has a satisfying assignment.
HAS_ASSIGNMENT = 10
MOST_EVENTS = 16


class NoAnswer(Exception):
    """The result is not available. The message says why."""


def called(words, given=b"", seconds=None):
    """Returns the status, output and error output of a command with these bytes as input."""
    try:
        done = subprocess.run(words, input=given, stdout=subprocess.PIPE, stderr=subprocess.PIPE,
                              timeout=seconds)
    except OSError as fault:
        raise NoAnswer(f"{words[0]} can't be called: {fault}") from fault
    return done.returncode, done.stdout, done.stderr


def said(*texts):
    """Returns the last non-empty line of what was printed."""
    lines = b"\n".join(texts).decode(errors="replace").split("\n")
    return next((line.strip() for line in reversed(lines) if line.strip()), "nothing")


def queries_for(k: int) -> list[tuple[str, int]]:
    """Returns the queries to refute for a plant to be safe at k."""
    return [(kind, n) for n in range(k + 1) for kind in ("hazard", "breach")] + [("step", k)]


class Plant:
    """A configuration with its columns, and the program."""

    def __init__(self, program, conf, columns):
        self.program, self.conf, self.columns = program, conf, columns

    def asked(self, command, query, *words):
        """Returns a command's answer about a query."""
        kind, number = query
        return called([str(self.program), command, "--columns", self.columns, "--query", kind,
                       "--number", str(number), *words], self.conf)

    def formula(self, query):
        """Returns the text of a query's formula."""
        status, out, complaint = self.asked("export", query)
        if status != 0:
            raise NoAnswer(f"no formula of {name_of(query)}: status {status}, "
                           f"{said(complaint, out)}")
        return out

    def why_not_refuted(self, query, proof):
        """Returns why a text doesn't refute a query, or `None` if it does."""
        status, out, complaint = self.asked("rup", query, f"--cert={proof}")
        if status == 0 and out == f"refuted {name_of(query)}\n".encode():
            return None
        return f"irv rup says of the solver's text, with status {status}: {said(complaint, out)}"


def name_of(query: Sequence[str | int]) -> str:
    """Returns a query's name in reports."""
    return f"{query[0]} {query[1]}"


def leave_out_what_adds_nothing(proof: Path) -> None:
    """Removes the first line of a refutation if it begins with `%`, and each that begins with `d`."""
    taken = proof.with_suffix(".taken")
    with open(proof, "rb") as lines, open(taken, "wb") as out:
        for number, line in enumerate(lines):
            if not line.startswith(b"d") and not (number == 0 and line.startswith(b"%")):
                out.write(line)
    taken.replace(proof)


def why_unrefuted(plant, solver, seconds, directory, query):
    """Returns why a query isn't refuted, or `None` if the program accepts the solver's refutation."""
    stem = directory.resolve() / f"{query[0]}-{query[1]}"
    cnf, proof = stem.with_suffix(".cnf"), stem.with_suffix(".proof")
    cnf.write_bytes(plant.formula(query))
    proof.unlink(missing_ok=True)
    words = [word.replace("{cnf}", str(cnf)).replace("{proof}", str(proof)) for word in solver]
    try:
        status, out, complaint = called(words, seconds=seconds)
    except subprocess.TimeoutExpired:
        return f"the solver took longer than {seconds} seconds"
    if status == HAS_ASSIGNMENT:
        return "the solver found an assignment, which is a run that the query asks for"
    if not proof.exists():
        return f"the solver wrote no refutation: status {status}, {said(complaint, out)}"
    leave_out_what_adds_nothing(proof)
    return plant.why_not_refuted(query, proof)


def ask_all(plant, given, directory):
    """Refutes every query with the solver, and prints each result. Returns the queries that were
    not refuted."""
    solver = shlex.split(given.solver)
    queries = queries_for(given.k)
    # Alone and first: the launcher may have to build the program, and a rejected configuration is
    # reported once.
    plant.formula(queries[0])
    left = []
    with concurrent.futures.ThreadPoolExecutor(given.jobs) as pool:
        tasks = [pool.submit(why_unrefuted, plant, solver, given.seconds, directory, query)
                 for query in queries]
        try:
            for query, task in zip(queries, tasks):
                why = task.result()
                print(f"refuted {name_of(query)}" if why is None
                      else f"not refuted {name_of(query)}: {why}", flush=True)
                left += [] if why is None else [query]
        except BaseException:
            for task in tasks:
                task.cancel()
            raise
    return left


def parser():
    line = Parser("tools/verify_with", "Shows by another solver that a plant is safe: the solver refutes each query, "
                  "and `irv rup` checks each refutation.\n\n--solver is a command line in which {cnf} stands for the "
                  "formula's file and {proof} for the refutation's, which\nhas to be plain text. For PicoSAT: "
                  "picosat.trace -n -R {proof} {cnf}\n\nThe exit status is 0 if every query was refuted: the last "
                  "line is `safe k=K`. 1: the last line names the queries\nthat were not, and nothing is said about "
                  "the plant. 2: a file, the program or the solver could not be had, or the\nconfiguration is "
                  "rejected.", 2, "tools/verify_with [OPTIONS] CONFIGURATION")
    line.once("--k", f"the k of the induction, at most {MOST_EVENTS} (1)", type=whole_number(1, MOST_EVENTS),
              default=1, metavar="K")
    line.once("--columns", "strict or free (strict)", choices=("strict", "free"), default="strict",
              metavar="KIND")
    line.once("--solver", f"the solver's command line ({CADICAL})".replace("%", "%%"), default=CADICAL,
              metavar="WORDS")
    line.once("--jobs", f"solvers that run at once ({os.cpu_count() or 1} here)", default=os.cpu_count() or 1,
              type=whole_number(1, 4096), metavar="N")
    line.once("--seconds", "how long the solver may take for a query (no limit)", type=float, metavar="N")
    line.once("--keep", "a directory that keeps the formulas and refutations", type=Path,
              metavar="DIRECTORY")
    line.once("--program", "the program that exports and checks (./irv)", type=Path, default=TOP / "irv",
              metavar="FILE")
    line.add_argument("conf", metavar="CONFIGURATION", type=Path, help="the configuration's file")
    return line


def options_of(words):
    """Returns the options in the arguments."""
    line = parser()
    given = line.parse_args(words)
    if not all(place in given.solver for place in ("{cnf}", "{proof}")):
        line.error("--solver has to contain {cnf} and {proof}")
    return given


def main(words):
    """Asks every query. Returns the exit status."""
    given = options_of(words)
    try:
        plant = Plant(given.program.resolve(), given.conf.read_bytes(), given.columns)
        with tempfile.TemporaryDirectory(prefix="irv-verify-with-") as made:
            directory = given.keep or Path(made)
            directory.mkdir(parents=True, exist_ok=True)
            left = ask_all(plant, given, directory)
    except (OSError, NoAnswer) as fault:
        print(f"tools/verify_with: {fault}", file=sys.stderr)
        return 2
    if left:
        print(f"not shown at k={given.k}: {', '.join(map(name_of, left))}")
        return 1
    print(f"safe k={given.k}")
    return 0
