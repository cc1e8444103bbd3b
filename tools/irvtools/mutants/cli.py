"""The command line of `tools/mutants`: tests mutants of functions, which the prover must refuse.

A function's proof depends on its callees' contracts, never on their bodies. So one check that
continues past failed proofs tests mutants of different functions together. A mutant counts as
refused only if its own function is not proved because of its own goal. If its own goals are proved,
it is tested alone. A mutant is a bad edit if it is unreadable, or only removes a name that a proof
file uses. Mutants refused over the same sources are not tested again on this machine.
"""

import tempfile
from concurrent.futures import ThreadPoolExecutor
from pathlib import Path


from irvtools.arguments import Parser
from irvtools.mutants.edits import BadEdit, read_edit
from irvtools.mutants.crates import Crates, Toolchain, Unproved, processors
from irvtools.mutants.rounds import REFUSED, Trial
from irvtools.mutants.cache import Tried

FOLDERS = ("mutants", "must-fail")


def files_of(crates, words):
    """Returns the named mutants' files by crate, or otherwise all that `rt ci` does not test."""
    found = {}
    for word in words or [it for it in crates.rows if (crates.folder(it) / FOLDERS[0]).is_dir()]:
        crate, _, edit = word.partition("/")
        if crate not in crates.rows:
            raise SystemExit(f"tools/mutants: crates.txt has no crate {crate}")
        files = [file for it in (FOLDERS if edit else FOLDERS[:1])
                 for file in sorted((crates.folder(crate) / it).glob("*"))
                 if not edit or file.stem == edit.removesuffix(".edit")]
        if edit and not files:
            raise SystemExit(f"tools/mutants: {crate} has no edit {edit}")
        found.setdefault(crate, []).extend(files)
    return found


def read_all(crates, files):
    """Returns each crate's mutants, and the faults of unreadable ones."""
    edits, bad = {}, []
    for crate, listed in files.items():
        sources = crates.sources(crate)
        for file in listed:
            try:
                if file.suffix != ".edit":
                    raise BadEdit("its name doesn't end in .edit")
                edits.setdefault(crate, []).append(read_edit(file, sources))
            except (BadEdit, OSError, ValueError) as why:
                bad.append(f"{crate}/{file.stem}: BAD EDIT: {why}")
    return edits, bad


def report(trial, done, says):
    """Prints the results for a crate's mutants; returns those not refused."""
    failed = []
    for edit, told in done.items():
        if told[0] == REFUSED:
            if says:
                print(f"{edit.name}: refused: {told[1]}")
        else:
            failed.append(edit)
            print(f"{edit.name}: {told}")
    print(f"{trial.name}: {len(done) - len(failed)} of {len(done)} refused, in {trial.rounds} checks "
          f"and {trial.seconds:.0f} s", flush=True)
    return failed


def try_left(crates, left, toolchain, is_alone, says, keep):
    """Tests each crate's mutants, some crates at once; returns the results. Refusals are cached
    when their crate is done."""
    done = {}
    with tempfile.TemporaryDirectory(prefix="irv-mutants-") as folder:
        room = Path(folder)
        crates.build_below(left, room)

        def try_crate(name):
            trial = Trial(crates, name, toolchain, room)
            found = trial.try_all(left[name], is_alone)
            for edit, told in found.items():
                if told[0] == REFUSED:
                    keep(edit, name, told[1])
            report(trial, found, says)
            return found

        weight = {it: len(left[it]) * sum(map(len, crates.sources(it).values())) for it in left}
        with ThreadPoolExecutor(processors()) as pool:
            for found in pool.map(try_crate, sorted(left, key=lambda it: -weight[it])):
                done.update(found)
    return done


def parser():
    line = Parser("tools/mutants", "Tries mutants, many in one check, and sees that the prover refuses each. The "
                  "libraries below are those that\n`rt ci` keeps: run it before. The last line is `N passed, M "
                  "failed`; the exit status is 0 only if every mutant was\nrefused.", 2,
                  "tools/mutants [OPTIONS] [CRATE | CRATE/MUTANT ..]")
    line.add_argument("names", nargs="*", metavar="CRATE", help="those of `mutants/` of a crate, or one of "
                      "`mutants/` or `must-fail/` (all of `mutants/`)")
    line.flag("--alone", "each in a check of its own, whatever was tried before")
    line.flag("--say", "print for each why it was refused")
    return line


def main(words):
    """Tests the named mutants; returns the exit status."""
    given = parser().parse_args(words)
    crates, toolchain = Crates(), Toolchain()
    edits, bad = read_all(crates, files_of(crates, given.names))
    for line in bad:
        print(line)
    lacks = toolchain.lacks()
    if lacks:
        print(f"tools/mutants: this toolchain ({toolchain.version or 'none'}) lacks {lacks}, so "
              "nothing is tried here")
        print(f"0 passed, {len(bad)} failed")
        return 1 if bad else 0
    tried = Tried(toolchain)
    sums = {crate: crates.sum(crate) for crate in edits}
    key = lambda edit, crate: tried.key(edit, sums[crate])
    left = {crate: [it for it in found if given.alone or not tried.has(key(it, crate))]
            for crate, found in edits.items()}
    left = {crate: found for crate, found in left.items() if found}
    keep = lambda edit, crate, why: tried.keep(key(edit, crate), edit, why)
    try:
        done = try_left(crates, left, toolchain, given.alone, given.say, keep)
    except Unproved as why:
        print(f"{why}\ntools/mutants: what the edits are tried over isn't proved")
        print("0 passed, 1 failed")
        return 1
    failed = len(bad) + sum(told[0] != REFUSED for told in done.values())
    whole = sum(map(len, edits.values())) + len(bad)
    if whole - len(bad) > len(done):
        print(f"{whole - len(bad) - len(done)} were refused on this machine before, over the same "
              "sources")
    print(f"{whole - failed} passed, {failed} failed")
    return 1 if failed else 0
