"""Tests of `tools/mutants`, in a small copy of a repository with a fake toolchain.

The fake prover calls a function wrong if its body has the word `wrong`, and unproved if it calls
such a function. The tests cover the tool: mutants tried together, refusals, bad edits, and mutants
not tried again.
"""

import os
import shutil
import subprocess
import tempfile
from pathlib import Path
from irvtools.paths import TOP
from tests.support.harness import Test


RT = """#!/usr/bin/env bash
top=$(cd "$(dirname "$0")/.." && pwd)
case $1 in
    doc) echo "$top/kit/START-HERE.md" ;;
    version) echo "pretended" ;;
    help) [ -e "$top/old" ] || echo "rt ci NAME.." ;;
    ci) echo "ci $(cut -d: -f1 crates.txt | tr '\\n' ' ')" >> "$top/calls"
        [ ! -e "$top/unproved" ] || { echo "low NOT PROVED"; exit 1; } ;;
esac
"""

RATTLE = r'''#!/usr/bin/env python3
import re, sys
from pathlib import Path
top = Path(__file__).resolve().parent.parent.parent
if "--help" in sys.argv:
    print("--only --allow-holes --incremental --logic-built")
    sys.exit(0)
only = [sys.argv[at + 1] for at, word in enumerate(sys.argv) if word == "--only"]
with open(top / "calls", "a") as calls:
    print("check", *sorted(only), file=calls)
text = Path("src/lib.rt").read_text()
if "unreadable" in text:
    print("src/lib.rt:1:1: error[syntax]: this can't be read")
    sys.exit(1)
bodies = dict(re.findall(r"^fn (\w+)\(\) -> u8 \{ (.*?) \}", text, re.M))
bodies.update(re.findall(r"^fn (\w+)\(\) -> u8\s[^}]*?(?:\}\s*)?\{\n(.*?)\n\}", text, re.S | re.M))
wrong = [name for name, body in bodies.items() if "wrong" in body or "LIMIT: u8 = 2" in text and "LIMIT" in body]
for name, body in bodies.items():
    if only and name not in only:
        continue
    calls = [it for it in wrong if f"{it}()" in body]
    also = f"it calls `high::{calls[0]}`, which is not proved" if calls else ""
    if name in wrong:
        print(f"fn high::{name}: no proof: expected answers in ./proofs/{name}/Answers.antt; `search` did not prove `returns`" + "; " * bool(also) + also)
    elif "gone" in body:
        print(f"./proofs/{name}/Answers.antt:1:1: error: `returns`: `x` is not in scope")
        print(f"fn high::{name}: not proved; it stands on `Rattle.high.proofs.{name}.Answers.returns`, which antt refuses")
    elif "itself" in body:
        print(f"./proofs/+{name}/Answers.antt:1:1: error: `returns`: the types differ")
        print(f"fn high::{name}: not proved; it stands on `Rattle.high.proofs.+{name}.Answers.returns`, which antt refuses")
    elif calls:
        print(f"fn high::{name}: no proof: {also}")
    else:
        print(f"fn high::{name}: no holes")
print(f"only={len(only)} holes=0" if only else "holes=0")
'''

CODE = """const LIMIT: u8 = 1;

fn first() -> u8 {
    1
}

fn second() -> u8 {
    first() + 1
}

fn third() -> u8
    ensures { result ≡ 3 }
{
    second() + LIMIT
}
"""


def lay_out(top):
    """Writes the copy: a crate `high` that depends on a crate `low`."""
    for path, text in {"bin/rt": RT, "kit/bin/rattle": RATTLE, "kit/START-HERE.md": "",
                       "crates.txt": "low:\nhigh: low\n", "HANDLES": "Handles allowed: none.\n",
                       "crates/low/src/lib.rt": "", "crates/high/src/lib.rt": CODE,
                       "crates/high/proofs/Lib.antt": ""}.items():
        (top / path).parent.mkdir(parents=True, exist_ok=True)
        (top / path).write_text(text)
    for path in ("bin/rt", "kit/bin/rattle"):
        (top / path).chmod(0o755)
    shutil.copytree(TOP / "tools", top / "tools", ignore=shutil.ignore_patterns("__pycache__"))


def write(top, directory="mutants", **edits):
    """Writes edits of `high`, each with its old and new text."""
    (top / "crates/high" / directory).mkdir(exist_ok=True)
    for name, (old, new) in edits.items():
        (top / "crates/high" / directory / f"{name}.edit").write_text(
            f"file: src/lib.rt\nold: {old}\nnew: {new}\n")


def call(top, *words):
    """Calls the copy's tool. Returns its lines, its status, and the requested checks."""
    (top / "calls").write_text("")
    environment = dict(os.environ, PATH=f"{top}/bin:{os.environ['PATH']}",
                       XDG_CACHE_HOME=str(top / "cache"))
    done = subprocess.run([top / "tools/mutants", *words], env=environment,
                          stdout=subprocess.PIPE, stderr=subprocess.STDOUT, text=True)
    checks = [line for line in (top / "calls").read_text().splitlines() if line.startswith("check")]
    return done.stdout.splitlines(), done.returncode, checks


FIRST, SECOND, THIRD = ("    1", "    wrong"), ("first() + 1", "wrong"), ("second() +", "wrong +")


def tries_together(top):
    """One check refuses mutants of three functions."""
    write(top, a=FIRST, b=SECOND, c=THIRD)
    lines, status, checks = call(top)
    return (lines[-1], status, checks) == ("3 passed, 0 failed", 0, ["check first second third"])


def tries_by_itself(top):
    """With `--alone` each has its own check. A named mutant is the only one."""
    write(top, a=FIRST, b=SECOND)
    alone, one = call(top, "--alone")[2], call(top, "--alone", "high/b")
    return alone == ["check first", "check second"] and one[2] == ["check second"]


def tries_one_function_in_two_checks(top):
    """Two mutants of one function do not share a check."""
    write(top, a=FIRST, b=("    1", "    wrong + 1"), c=SECOND)
    return call(top)[1:] == (0, ["check first second", "check first"])


def tries_apart_what_hides_another(top):
    """An edit whose text is duplicated by another edit has its own check."""
    write(top, a=FIRST, b=("first() + 1", "wrong + LIMIT"), c=("+ LIMIT", "+ wrong"))
    return call(top)[1:] == (0, ["check first second", "check third"])


def lets_none_through(top):
    """A body that is still proved fails, alone and with others."""
    write(top, a=FIRST, b=("first() + 1", "first() + 2"), c=THIRD)
    lines, status, _ = call(top)
    return (status == 1 and lines[-1] == "2 passed, 1 failed"
            and any(line.startswith("high/b: LET THROUGH") for line in lines))


def caller_of_a_mutant_is_not_refused(top):
    """A function that is unproved only because of its callees is tried by itself, and not refused."""
    write(top, a=FIRST, b=("first() + 1", "1 + first()"))
    lines, status, checks = call(top)
    return (status, checks) == (1, ["check first second", "check second"]) and any(
        line.startswith("high/b: LET THROUGH") for line in lines)


def unread_spoils_no_other(top):
    """An edit that the prover cannot read fails, and others are tried without it."""
    write(top, a=FIRST, b=("first() + 1", "unreadable"), c=THIRD)
    lines, status, _ = call(top)
    return (status == 1 and lines[-1] == "2 passed, 1 failed"
            and any(line.startswith("high/b: BAD EDIT") for line in lines))


def names_gone_show_nothing(top):
    """A refusal because of a proof file's missing name does not count."""
    write(top, a=("    1", "    gone"))
    lines, status, _ = call(top)
    return status == 1 and any(line.startswith("high/a: NOT SHOWN") for line in lines)


def reads_what_is_said_of_recursion(top):
    """A recursive function's proof files are in a directory with a + before its name."""
    write(top, a=("    1", "    itself"))
    lines, status, _ = call(top)
    return (lines[-1], status) == ("1 passed, 0 failed", 0)


def others_see_a_constant(top):
    """A change outside a body has its own check of all functions."""
    write(top, a=FIRST, b=("LIMIT: u8 = 1", "LIMIT: u8 = 2"))
    return call(top)[1:] == (0, ["check first", "check"])


def refuses_what_an_edit_adds(top):
    """A function that the edit adds counts too: if it is not proved, the edit is refused."""
    path = top / "crates/high/mutants/a.edit"
    path.parent.mkdir()
    path.write_text("file: src/lib.rt\nold: const LIMIT: u8 = 1;\n"
                    "new: fn helper() -> u8 { wrong } const LIMIT: u8 = 1;\n"
                    "file: src/lib.rt\nold: first() + 1\nnew: helper() + 1\n")
    return call(top)[1:] == (0, ["check helper second"])


def applies_once(top):
    """An edit fails if its old text is missing or duplicated, it changes nothing, or has another
    line."""
    write(top, a=("u8", "u16"), b=("nowhere", "1"), c=("    1", "    1"), d=("    1", "    wrong\nmore"))
    lines, status, checks = call(top)
    return (status, lines[-1], checks) == (1, "0 passed, 4 failed", [])


def tries_nothing_twice(top):
    """A refused edit is tried again only if a source of the crate or a dependency changes."""
    write(top, a=FIRST)
    first, again = call(top), call(top)
    (top / "crates/low/src/lib.rt").write_text("// another\n")
    changed = call(top)
    return ([len(it[2]) for it in (first, again, changed)] == [1, 0, 1]
            and again[:2] == (["1 were refused on this machine before, over the same sources",
                               "1 passed, 0 failed"], 0))


def names_what_there_is(top):
    """A named edit of `must-fail/` is tried, and a missing one is refused."""
    write(top, "must-fail", a=FIRST)
    return (call(top)[0] == ["0 passed, 0 failed"] and call(top, "high/a")[1] == 0
            and [call(top, it)[1] for it in ("high/b", "higher", "--together")] == [1, 1, 2])


def wants_proved_libraries(top):
    """If a dependency of the crate is not proved, nothing is refused."""
    write(top, a=FIRST)
    (top / "unproved").write_text("")
    lines, status, checks = call(top)
    return (status, lines[-1], checks) == (1, "0 passed, 1 failed", [])


def passes_over(top):
    """If the toolchain's CI caches nothing, the tool says so, and fails only unreadable edits."""
    write(top, a=FIRST)
    (top / "old").write_text("")
    lines, status, checks = call(top)
    if (status, lines[-1], checks) != (0, "0 passed, 0 failed", []) or "lacks" not in lines[0]:
        return False
    write(top, b=("what is gone", "1"))
    lines, status, checks = call(top)
    return (status, lines[-1], checks) == (1, "0 passed, 1 failed", []) and "BAD EDIT" in lines[0]


CHECKS = (tries_together, tries_by_itself, tries_one_function_in_two_checks,
              tries_apart_what_hides_another, lets_none_through,
              caller_of_a_mutant_is_not_refused, unread_spoils_no_other,
              names_gone_show_nothing, reads_what_is_said_of_recursion, others_see_a_constant,
              refuses_what_an_edit_adds, applies_once, tries_nothing_twice, names_what_there_is,
              wants_proved_libraries, passes_over)


class MutantToolTests(Test):
    """The tool over the small repository."""


def add_checks():
    """Adds a test for each check."""
    for check in CHECKS:
        def test(self, check=check):
            with tempfile.TemporaryDirectory(prefix="irv-mutants-test-") as directory:
                lay_out(Path(directory))
                self.assertTrue(check(Path(directory)), check.__doc__)
        test.__doc__ = check.__doc__
        setattr(MutantToolTests, "test_" + check.__name__, test)


add_checks()
