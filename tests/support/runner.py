"""The test runner: finds tests, runs them in parallel, and counts their checks.

A test's name is its module below `tests/`, without `_tests`, and its method, as in
`html.advice.asks`. Each test runs in its own process. The tests of a module with `tearDownModule`
run in turn in one process. Modules with `TAKES_LONG = True` start first (`units.py`)."""

from __future__ import annotations

import importlib
import os
import shutil
import signal
import sys
import tempfile
import traceback
import unittest
from pathlib import Path
from typing import Iterator

from irvtools.arguments import Parser, whole_number
from irvtools.paths import PROGRAM, TOP
from tests.support.bytecode import compile_tools
from tests.support.harness import SETTINGS, Test
from tests.support.units import BUILD, FAILED, PASSED, SKIPPED, Build, Outcome, name_of, run_all

TESTS = TOP / "tests"
MANY = 20               # tests for which the modules of the tools are compiled first
NOT_MADE = 125          # the exit status if the program that tests wait for is not made


def test_modules() -> list[str]:
    """Returns the names of the test modules: `tests/*.py` and `tests/SUBJECT/*_tests.py`."""
    files = [path for path in sorted(TESTS.rglob("*.py")) if path.name not in ("__init__.py", "entry.py")]
    names = [path.relative_to(TOP).with_suffix("").as_posix().replace("/", ".") for path in files]
    return [name for name in names if name.count(".") == 1 or name.endswith("_tests")
            and not name.startswith("tests.support.")]


def flat(suite: unittest.TestSuite) -> Iterator[unittest.TestCase]:
    """Yields the tests of a suite and of the suites in it."""
    for each in suite:
        if isinstance(each, unittest.TestSuite):
            yield from flat(each)
        else:
            yield each


def all_tests() -> list[unittest.TestCase]:
    """Returns all tests in module order. A module that cannot be imported fails as a test."""
    found = []
    for name in test_modules():
        try:
            module = importlib.import_module(name)
        except Exception:
            found.append(broken_module(name, traceback.format_exc()))
            continue
        tests = list(flat(unittest.defaultTestLoader.loadTestsFromModule(module)))
        tests = [test for test in tests if type(test).__module__ == name]
        found += tests or [broken_module(name, "the module has no test")]
    return found


def broken_module(name: str, why: str) -> unittest.TestCase:
    """Returns a failing test for a module that cannot be imported."""
    def test_import(self):
        self.fail(why)
    return type("Broken", (Test,), {"__module__": name, "test_import": test_import})("test_import")


def show(outcome: Outcome, again: str) -> None:
    """Prints a test's result, and for a failure the command that repeats it."""
    checks = f"{outcome.checks} checks, " if outcome.checks != 1 else ""
    why = f": {outcome.why}" if outcome.result == SKIPPED else f": {outcome.says}" if outcome.says else ""
    print(f"{outcome.result} {outcome.name} ({checks}{outcome.seconds:.1f} s){why}", flush=True)
    if outcome.result == FAILED:
        print("\n".join("    " + line for line in outcome.why.rstrip().split("\n")), flush=True)
    if outcome.result == FAILED and outcome.name != BUILD:
        print(f"    again: {again} {outcome.name}", flush=True)


def parser() -> Parser:
    """Returns the parser of the command line."""
    line = Parser("tests/run", "Runs the tests of the program, its tools and its sources, several at once.\n\n"
                  "NAME is a test's name or its first parts, as html or html.advice. The last line is\n"
                  "`N passed, N failed, N skipped`, which counts checks; the exit status is 0 only if none "
                  "failed.", 2, "tests/run [OPTIONS] [NAME ..]")
    line.add_argument("names", nargs="*", metavar="NAME", help="the tests that run (all)")
    line.program()
    line.once("--jobs", f"tests that run at once ({os.cpu_count() or 1} here)", metavar="N",
              type=whole_number(1, 1024), default=os.cpu_count() or 1)
    line.flag("--long", "also run tests that take long")
    line.flag("--without-program", "run only tests that need no program")
    line.flag("--with-program", "run only tests that need the program")
    line.once("--after", "begin with the tests that need the program when FILE ends; its text is 0 if the program "
              "is made by then, otherwise the exit status is 125", metavar="FILE")
    line.flag("--needs-program", "print yes if one of these tests needs the program, otherwise no, and run none")
    line.flag("--list", "print the tests' names, and run none")
    return line


def is_named(name: str, word: str) -> bool:
    """Returns whether an argument names a test, by its whole name or first parts."""
    return name == word or name.startswith(f"{word}.")


def chosen(tests, given):
    """Returns the tests that the arguments name, and the arguments without a test."""
    unknown = [word for word in given.names if not any(is_named(name_of(test), word) for test in tests)]
    found = [test for test in tests
             if not given.names or any(is_named(name_of(test), word) for word in given.names)]
    if given.without_program or given.with_program:
        found = [test for test in found if test.needs_program == given.with_program]
    return found, unknown


def main(words: list[str]) -> int:
    """Runs the tests that the arguments name. Returns the exit status."""
    given = parser().parse_args(words)
    SETTINGS.program, SETTINGS.is_long = given.program.resolve(), given.long
    SETTINGS.is_proved = SETTINGS.program == PROGRAM.resolve()
    tests, unknown = chosen(all_tests(), given)
    if unknown:
        print(f"tests/run: no test is called {' or '.join(unknown)}; see tests/run --list", file=sys.stderr)
        return 2
    needs_program = any(test.needs_program for test in tests)
    if given.list or given.needs_program:
        print(*(map(name_of, tests) if given.list else ["yes" if needs_program else "no"]), sep="\n")
        return 0
    if needs_program and not given.after and not SETTINGS.program.is_file():
        print(f"tests/run: the program {SETTINGS.program} does not exist; build it with ./irv --build, or "
              "give --program FILE", file=sys.stderr)
        return 2
    again = "tests/run" + ("" if SETTINGS.is_proved else f" --program {given.program}") + " --long" * given.long
    for number in (signal.SIGHUP, signal.SIGTERM):
        if signal.getsignal(number) != signal.SIG_IGN:
            signal.signal(number, lambda number, _: sys.exit(128 + number))
    try:
        return run_and_count(tests, given, again)
    except KeyboardInterrupt:
        print("tests/run: interrupted", file=sys.stderr)
        return 128 + signal.SIGINT


def run_and_count(tests: list[unittest.TestCase], given, again: str) -> int:
    """Runs tests, prints each result and their counts. Returns the exit status."""
    counts, program = {PASSED: 0, FAILED: 0, SKIPPED: 0}, SETTINGS.program
    with tempfile.TemporaryDirectory(prefix="irv-tests-") as room:
        # only the program, without its neighbours: tests make the notes that they need
        SETTINGS.program = Path(room, "irv")
        if len(tests) > MANY:
            compile_tools(Path(room, "modules"))
        build = Build(given.after, lambda: shutil.copy(program, SETTINGS.program)) if given.after else None
        if not build and program.is_file():
            shutil.copy(program, SETTINGS.program)
        for outcome in run_all(tests, given.jobs, build):
            show(outcome, again)
            counts[outcome.result] += outcome.checks if outcome.result == PASSED else 1
    print(", ".join(f"{count} {result.lower()}" for result, count in counts.items()))
    if build and build.is_made is False:
        return NOT_MADE
    return 0 if counts[PASSED] and not counts[FAILED] else 1
