"""The axioms: the C functions on whose contracts the program's proof depends, by name.

CI prints each library's first three and their number. The prover lists all on request: it checks
the program once more, over CI's libraries. Both lists must agree."""

from __future__ import annotations

import re
import subprocess
from pathlib import Path

from irvtools.mutants.crates import Crates, Toolchain

LISTED = re.compile(r"^ +(\S+) +reached$", re.M)
TOTAL = re.compile(r"^logic=proved .*?\baxioms=(\d+)", re.M)
PRINTED = re.compile(r"^axioms (\w+): (.+) \((\d+) of the \d+ declared\)$", re.M)
FEWER = "..."           # in place of unprinted names


class Unlisted(Exception):
    """The names are unknown; the message says why."""


def ask(top: Path, program: str = "irv") -> str:
    """Returns the prover's output about a program of the repository, with all names."""
    toolchain, crates = Toolchain(), Crates(top)
    lower = crates.below(program)
    absent = [name for name in lower
              if not (top / "crates" / name / f"out/rlib/{name}.rlib").exists()]
    if absent:
        raise Unlisted(f"crates/{absent[0]}/out has no library that CI built: make the release in "
                       "the checkout in which CI ran")
    words = [word for word in crates.words(program, toolchain, top) if word != "--allow-holes"]
    try:
        done = subprocess.run([*words, "--links", f"{program}=", "--list-axioms"],
                              cwd=top / "crates" / program, stdin=subprocess.DEVNULL,
                              stdout=subprocess.PIPE, stderr=subprocess.STDOUT, errors="replace",
                              check=False)
    except OSError as fault:
        raise Unlisted(f"cannot call the prover: {fault}") from fault
    return done.stdout


def names_in(said: str) -> list[str]:
    """Returns the names that the prover listed for a proved program."""
    total, names = TOTAL.search(said), sorted(LISTED.findall(said))
    if not total:
        last = (said.strip() or "nothing").splitlines()[-1]
        raise Unlisted("the prover did not find the program proved over the libraries here: "
                       f"{last}")
    if int(total[1]) != len(names):
        raise Unlisted(f"the prover counts {total[1]} axioms, and lists {len(names)}")
    return names


def part_of(log: str, crate: str = "irv") -> str:
    """Returns the output of `rt ci` about a crate's proof."""
    part = re.search(rf"^== {crate}\n(.*?)(?=^== |\Z)", log, re.M | re.S)
    return part[1] if part else ""


def check_same(names: list[str], printed: str) -> None:
    """Checks these names against CI's number and first names."""
    total = TOTAL.search(printed)
    if not total:
        raise Unlisted("the log has no number of axioms of the program: rt ci prints it only if it "
                       "proved irv in that run, and did not take it from an earlier one")
    counted = [(library, first.split(", "), int(number))
               for library, first, number in PRINTED.findall(printed)]
    of = {library: [name for name in names if name.startswith(f"{library}::")]
          for library, _, _ in counted}
    is_same = int(total[1]) == len(names) == sum(number for _, _, number in counted) and all(
        len(of[library]) == number and set(first) - {FEWER} <= set(of[library])
        for library, first, number in counted)
    if not is_same:
        raise Unlisted(f"the prover lists {len(names)} axioms here, and the log has {total[1]}, or "
                       "others")


def axioms(top: Path, log: str) -> list[str]:
    """Returns all axiom names, as listed here and counted by CI."""
    names = names_in(ask(top))
    check_same(names, part_of(log))
    return names
