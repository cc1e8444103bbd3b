"""Tests of the runner over small test trees: crashes, killed processes, names, set-ups and order."""

from __future__ import annotations

import re
import shutil
import signal
import subprocess
import tempfile
import time
from pathlib import Path

from irvtools.paths import TOP
from tests.support.harness import Test

COPIED = ("tests/run", "tests/entry.py", "tests/__init__.py", "tests/support/__init__.py",
          "tests/support/bytecode.py", "tests/support/harness.py", "tests/support/runner.py",
          "tests/support/units.py", "tools/irvtools/__init__.py", "tools/irvtools/arguments.py",
          "tools/irvtools/paths.py")
SECONDS = re.compile(r"[0-9.]+ s\)")
BEGIN = "import os, signal, unittest\nfrom tests.support.harness import LongTest, Test\n"
SMALL = BEGIN + '''
class SmallTests(Test):
    def test_good(self):
        """A test that passes."""
        self.see([], 3)
    def test_wrong(self):
        self.see(["one fault", "another"])
    def test_crash(self):
        {}["missing"]
    def test_killed(self):
        os.kill(os.getpid(), signal.SIGKILL)
    def test_part(self):
        for number in (1, 2):
            with self.subTest(number=number):
                self.assertEqual(number, 1)
    def test_skipped(self):
        self.skipTest("no reason")

class SlowTests(LongTest):
    needs_program = False
    def test_long(self):
        pass
'''
SHARED = BEGIN + '''
def setUpModule():
    {}
def tearDownModule():
    pass
class SharedTests(Test):
    def test_a(self):
        pass
    def test_b(self):
        pass
'''
AFTER = BEGIN + '''
import pathlib, time
from tests.support.harness import ProgramTest
HERE = pathlib.Path(__file__).parent
class AfterTests(Test):
    def test_first(self):
        HERE.joinpath("begun").touch()
class LaterTests(ProgramTest):
    def test_later(self):
        self.assertEqual(self.program.read_text(), "made")
'''
ENDLESS = BEGIN + '''
import pathlib, subprocess, tempfile
HERE = pathlib.Path(__file__).parent
class EndlessTests(Test):
    def test_endless(self):
        with tempfile.TemporaryDirectory(dir=HERE, prefix="left-"), subprocess.Popen(["sleep", "300"]) as process:
            HERE.joinpath("begun").write_text(f"{process.pid}\\n")
'''
ORDER = BEGIN + "TAKES_LONG = {}\nclass OrderTests(Test):\n    def test_one(self):\n        pass\n"


def heed_signals() -> None:
    """Makes the signals end a process, even if the caller ignores them."""
    for number in (signal.SIGINT, signal.SIGTERM, signal.SIGHUP):
        signal.signal(number, signal.default_int_handler if number == signal.SIGINT else signal.SIG_DFL)


class RunnerTests(Test):
    """The runner in a small repository."""

    def setUp(self):
        """Makes the repository."""
        directory = tempfile.TemporaryDirectory(prefix="irv-runner-")
        self.addCleanup(directory.cleanup)
        self.top = Path(directory.name)
        for name in COPIED:
            (self.top / name).parent.mkdir(parents=True, exist_ok=True)
            shutil.copy(TOP / name, self.top / name)

    def write(self, name: str, text: str) -> None:
        """Writes a test module below `tests/`."""
        path = self.top / "tests" / name
        path.parent.mkdir(exist_ok=True)
        (path.parent / "__init__.py").touch()
        path.write_text(text, encoding="utf-8")

    def run_tests(self, *words: str) -> tuple[int, list[str], str]:
        """Returns the runner's exit status, its lines without seconds, and its messages."""
        done = subprocess.run([self.top / "tests/run", *words], stdout=subprocess.PIPE, stderr=subprocess.PIPE,
                              text=True, check=False)
        return done.returncode, SECONDS.sub("S)", done.stdout).splitlines(), done.stderr

    def see_results(self, status: int, count: str, *lines: str) -> None:
        """Runs all tests. Fails if the status, the last line or one of these lines differs."""
        got, printed, errors = self.run_tests("--jobs", "2")
        self.assertEqual((got, printed[-1:], errors), (status, [count], ""), printed)
        self.see((f"{line!r} is not printed: {printed}" for line in lines if line not in printed), 1 + len(lines))

    def test_each_result(self):
        """A crash, a killed process and a failed part fail their tests; others still run."""
        self.write("small.py", SMALL)
        self.see_results(
            1, "3 passed, 4 failed, 2 skipped", "passed small.good (3 checks, S): A test that passes.",
            "FAILED small.wrong (S)", "    one fault", "    again: tests/run small.wrong", "FAILED small.crash (S)",
            "    KeyError: 'missing'", "FAILED small.killed (S)",
            "    the test's process ended with status -9 and no result", "FAILED small.part (S)",
            "skipped small.skipped (S): no reason", "skipped small.long (S): takes long; --long runs it")

    def test_long(self):
        """--long runs long tests."""
        self.write("small.py", SMALL)
        self.assertEqual(self.run_tests("--long", "small.long")[:2],
                         (0, ["passed small.long (S)", "1 passed, 0 failed, 0 skipped"]))

    def test_names(self):
        """A test runs by its whole name or its first parts. An unknown name ends with status 2."""
        self.write("subject/part_tests.py", ORDER.format(False))
        self.write("small.py", SMALL)
        for name in ("subject", "subject.part", "subject.part.one"):
            self.assertEqual(self.run_tests(name)[1], ["passed subject.part.one (S)",
                                                       "1 passed, 0 failed, 0 skipped"])
        for name in ("subj", "subject.part.on", "subject.part_tests"):
            self.assertEqual(self.run_tests("small", name), (
                2, [], f"tests/run: no test is called {name}; see tests/run --list\n"))

    def test_broken_modules(self):
        """A module that cannot be imported or has no test is a failure."""
        self.write("broken.py", "import no_such_module\n")
        self.write("empty.py", "")
        self.see_results(1, "0 passed, 2 failed, 0 skipped", "FAILED broken.import (S)",
                         "    ModuleNotFoundError: No module named 'no_such_module'", "FAILED empty.import (S)",
                         "    the module has no test")

    def test_shared_set_up(self):
        """A module's tests fail if its set-up crashes, and are skipped if it is."""
        self.write("a/one_tests.py", SHARED.format("pass"))
        self.see_results(0, "2 passed, 0 failed, 0 skipped")
        self.write("a/one_tests.py", SHARED.format("raise unittest.SkipTest('no reason')"))
        self.write("a/two_tests.py", SHARED.format("{}['missing']"))
        self.see_results(1, "0 passed, 3 failed, 3 skipped", "skipped a.one.b (S): no reason",
                         "FAILED a.two.b (S)", "    KeyError: 'missing'")

    def test_shared_kill(self):
        """If a process of several tests is killed, all fail."""
        self.write("a/one_tests.py", SHARED.format("os.kill(os.getpid(), signal.SIGKILL)"))
        self.see_results(1, "0 passed, 2 failed, 0 skipped", "FAILED a.one.a (S)", "FAILED a.one.b (S)")

    def test_order(self):
        """The tests of modules that take long start first."""
        self.write("a.py", ORDER.format(False))
        self.write("b.py", ORDER.format(True))
        self.write("c.py", ORDER.format(False))
        printed = self.run_tests("--jobs", "1")[1]
        self.assertEqual([line.split()[1] for line in printed[:-1]], ["b.one", "a.one", "c.one"])

    def begin(self, *words: str) -> subprocess.Popen:
        """Starts the runner, and returns when the file `begun` is written."""
        started = subprocess.Popen([self.top / "tests/run", *words], stdin=subprocess.PIPE, stdout=subprocess.PIPE,
                                   stderr=subprocess.PIPE, text=True, preexec_fn=heed_signals)
        self.addCleanup(started.kill)
        for _ in range(3000):
            if (self.top / "tests/begun").exists():
                return started
            time.sleep(0.1)
        self.fail("the test does not begin")

    def test_after(self):
        """With --after the tests that need no program begin at once, the others when the program is made."""
        self.write("a.py", AFTER)
        for said, status, last in (("0\n", 0, "2 passed, 0 failed, 0 skipped"), ("", 125, "1 passed, 1 failed, 0 skipped")):
            (self.top / "tests/begun").unlink(missing_ok=True)
            (self.top / "irv").unlink(missing_ok=True)
            running = self.begin("--program", str(self.top / "irv"), "--after", "/dev/stdin")
            (self.top / "irv").write_text("made")
            printed, errors = running.communicate(said)
            self.assertEqual((running.returncode, printed.splitlines()[-1], errors), (status, last, ""), printed)
            self.assertEqual("1 tests did not run: the program that they need is not made" in printed, status != 0)

    def test_signals(self):
        """A signal ends the runner, its tests and what they started, and their files are removed."""
        self.write("a.py", ENDLESS)
        for number in (signal.SIGINT, signal.SIGTERM, signal.SIGHUP):
            (self.top / "tests/begun").unlink(missing_ok=True)
            running = self.begin()
            while not (child := (self.top / "tests/begun").read_text()).endswith("\n"):
                time.sleep(0.1)
            running.send_signal(number)
            running.communicate()
            self.assertEqual(running.returncode, 128 + number)
            self.assertFalse(Path(f"/proc/{child.strip()}").exists())
            self.assertEqual(list((self.top / "tests").glob("left-*")), [])

    def test_needs_program(self):
        """--needs-program says whether one of the tests needs the program."""
        self.write("a.py", AFTER)
        for word, said in (("a", "yes"), ("a.later", "yes"), ("a.first", "no")):
            self.assertEqual(self.run_tests("--needs-program", word), (0, [said], ""))
        self.assertEqual(self.run_tests("--needs-program", "b")[:2], (2, []))

    def test_program(self):
        """If a test needs a missing program, the status is 2 and no test runs."""
        self.write("a.py", ORDER.format(False).replace("def test", "needs_program = True\n    def test"))
        status, printed, errors = self.run_tests("--program", "missing")
        self.assertEqual((status, printed), (2, []))
        self.assertRegex(errors, "the program .*/missing does not exist; build it with ./irv --build")
        self.assertEqual(self.run_tests("--without-program")[1], ["0 passed, 0 failed, 0 skipped"])
        self.assertEqual(self.run_tests("--list")[1], ["a.one"])
