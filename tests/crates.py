"""Runs the tests of the crates without proof, by `rt try --test`: one test for each crate that has
tests.

`rt ci` runs the same tests over the proved crates. So they are skipped if the tested program is the
proved one, as in CI."""

from __future__ import annotations

import re
import shutil
import subprocess
import tempfile
from pathlib import Path

from irvtools.launcher import unproved_build
from irvtools.paths import TOP
from tests.support.harness import SETTINGS, Test

TAKES_LONG = True

HAS_TEST = re.compile(r"^ *#\[test\]$", re.MULTILINE)
RESULT = re.compile(r"^test result: ok\. ([1-9]\d*) passed; 0 failed; 0 ignored; 0 filtered out$", re.MULTILINE)
# the last line if the compiled tests have ended without a fault
ENDED = "run=ended status=0 runners=1 proved=no"


def crates_with_tests(top: Path) -> list[str]:
    """Returns the crates that have tests."""
    return [crate.name for crate in sorted((top / "crates").iterdir())
            if any(HAS_TEST.search(path.read_text(encoding="utf-8")) for path in (crate / "src").rglob("*.rt"))]


def passed(printed: str) -> int:
    """Returns how many tests passed by the lines of `rt try --test`, or 0 if not all did."""
    result = RESULT.search(printed)
    return int(result[1]) if result and printed.rstrip().split("\n")[-1] == ENDED else 0


def try_tests(crate: str) -> tuple[int, str]:
    """Compiles and runs a crate's tests. Returns how many passed, or 0, and what was printed."""
    with tempfile.TemporaryDirectory(prefix="irv-crates-") as room:
        try:
            rt = unproved_build.without_prover(Path(room))
        except unproved_build.UnexpectedToolchain:
            rt = "rt"
        # the toolchain's interpreter runs one step only: it repeats the compiled run, and takes longer
        done = subprocess.run([rt, "try", "--test", "--steps", "1"], cwd=TOP / "crates" / crate, check=False,
                              stdin=subprocess.DEVNULL, stdout=subprocess.PIPE, stderr=subprocess.STDOUT, text=True)
    return 0 if done.returncode else passed(done.stdout), done.stdout


class CrateTests(Test):
    """The tests of the crates."""

    def try_crate(self, crate: str) -> None:
        """Fails unless all tests of a crate pass."""
        if SETTINGS.is_proved:
            self.skipTest("`rt ci` runs the tests of the proved crates")
        if shutil.which("rt") is None:
            self.skipTest("rt is not installed")
        count, printed = try_tests(crate)
        self.see([] if count else printed.split("\n")[-12:], count or 1)

    def test_printed(self):
        """Tests count as passed only if all are, and if the run has ended."""
        good = f"test a ... ok\ntest result: ok. 12 passed; 0 failed; 0 ignored; 0 filtered out\n{ENDED}\n"
        self.assertEqual(passed(good), 12)
        for old, new in (("ok. 12 passed; 0 failed", "FAILED. 11 passed; 1 failed"), ("12 passed", "0 passed"),
                         ("0 ignored", "1 ignored"), ("run=ended", "run=fault"), (ENDED, "")):
            self.assertEqual(passed(good.replace(old, new)), 0, new)

    def test_crates(self):
        """There is a test for each crate that has tests."""
        self.assertGreater(len(CRATES), 1)
        self.assertTrue(all(hasattr(self, f"test_{crate}") for crate in CRATES))


def add_tests(crate: str) -> None:
    """Adds the test of a crate."""
    def test(self):
        self.try_crate(crate)
    test.__doc__ = f"The tests of {crate} pass, compiled without proof."
    setattr(CrateTests, f"test_{crate}", test)


CRATES = crates_with_tests(TOP)
for each in CRATES:
    add_tests(each)
