"""Units of tests, one process each: starts them, several at once, and yields the results.

Tests that need a program which is still being made wait for it."""

from __future__ import annotations

import contextlib
import multiprocessing
import os
import signal
import sys
import time
import traceback
import unittest
from dataclasses import dataclass
from multiprocessing import connection
from typing import Callable, Iterable, Iterator

from tests.support.bytecode import use_compiled

SECONDS_TO_END = 10     # for an interrupted unit to remove its files
PASSED, FAILED, SKIPPED = "passed", "FAILED", "skipped"
BUILD = "the build"     # what fails, in place of a test, if the program is not made


@dataclass
class Outcome:
    """A test's name, whether it passed, how many checks it made, and why it failed."""

    name: str
    result: str
    checks: int
    seconds: float
    why: str
    says: str


def name_of(test: unittest.TestCase) -> str:
    """Returns a test's name."""
    module = type(test).__module__.removeprefix("tests.").removesuffix("_tests")
    return f"{module}.{test._testMethodName.removeprefix('test_')}"


def units_of(tests: Iterable[unittest.TestCase]) -> list[list[unittest.TestCase]]:
    """Returns the tests in units, one process each. Those of long modules come first."""
    units, by_module = [], {}
    for test in tests:
        module = sys.modules.get(type(test).__module__)
        if hasattr(module, "tearDownModule"):
            if module.__name__ not in by_module:
                units.append(by_module.setdefault(module.__name__, []))
            by_module[module.__name__].append(test)
        else:
            units.append([test])
    return sorted(units, key=lambda unit: not takes_long(unit[0]))


def takes_long(test: unittest.TestCase) -> bool:
    """Returns whether a test's module takes long."""
    return getattr(sys.modules.get(type(test).__module__), "TAKES_LONG", False)


class Recorder(unittest.TestResult):
    """Records the result of each test."""

    def __init__(self) -> None:
        super().__init__()
        self.outcomes: list[Outcome] = []
        self.begin = time.monotonic()

    def startTest(self, test):
        """Notes the start of a test."""
        super().startTest(test)
        self.begin = time.monotonic()

    def note(self, test, result, why=""):
        """Notes the result of a test."""
        checks = getattr(test, "checks", 1)
        name = name_of(test) if hasattr(test, "_testMethodName") else str(test)
        said = (getattr(test, "_testMethodDoc", "") or "").strip().split("\n")[0]
        self.outcomes.append(Outcome(name, result, checks, time.monotonic() - self.begin, why, said))

    def addSuccess(self, test):
        """Notes a test that passed."""
        self.note(test, PASSED)

    def addSkip(self, test, reason):
        """Notes a test that was skipped."""
        self.note(test, SKIPPED, reason)

    def addFailure(self, test, err):
        """Notes a test that failed."""
        self.note(test, FAILED, str(err[1]))

    def addError(self, test, err):
        """Notes a crashed test as a failure."""
        self.note(test, FAILED, "".join(traceback.format_exception(*err)))

    def addSubTest(self, test, subtest, err):
        """Notes a failed or crashed part of a test as the test's failure."""
        if err is not None:
            self.note(test, FAILED, f"{subtest._subDescription()}: " + "".join(traceback.format_exception(*err)))


def run_unit(unit: list[unittest.TestCase]) -> list[Outcome]:
    """Runs a unit. Returns a result for each test, and those of set-up and tear-down."""
    recorder = Recorder()
    unittest.TestSuite(unit).run(recorder)
    return recorder.outcomes + without_result(unit, recorder.outcomes)


def without_result(unit: list[unittest.TestCase], outcomes: list[Outcome]) -> list[Outcome]:
    """Returns a result for each test of a unit without one in `outcomes`.

    It is skipped if its class or module set-up was, otherwise failed."""
    known, names = {outcome.name for outcome in outcomes}, {name_of(test) for test in unit}
    skips = [outcome for outcome in outcomes if outcome.name not in names and outcome.result == SKIPPED]
    result, why = (SKIPPED, skips[0].why) if skips else (FAILED, "the test ended without a result")
    return [Outcome(name, result, 1, 0.0, why, "") for name in map(name_of, unit) if name not in known]


def answer_unit(unit, answer) -> None:
    """Runs a unit in this process and a process group of its own, and sends its results."""
    os.setpgid(0, 0)
    use_compiled(type(unit[0]).__module__)
    signal.signal(signal.SIGINT, signal.default_int_handler)
    for number in (signal.SIGHUP, signal.SIGTERM):      # the parent may have ignored them
        signal.signal(number, signal.SIG_DFL)
    with contextlib.suppress(KeyboardInterrupt):
        answer.send(run_unit(unit))


def ended(unit, process, answer) -> list[Outcome]:
    """Returns a unit's results after its process has answered or ended."""
    try:
        outcomes = answer.recv()
    except EOFError:
        outcomes = []
    process.join()
    if outcomes:
        return outcomes
    why = f"the test's process ended with status {process.exitcode} and no result"
    return [Outcome(name_of(test), FAILED, 1, 0.0, why, "") for test in unit]


class Build:
    """A program in the making. The file `after` ends with it, and then has `0` if it is made."""

    def __init__(self, after: str, take: Callable[[], None]) -> None:
        self.number, self.take, self.is_made, self.said = os.open(after, os.O_RDONLY), take, None, b""

    def read(self) -> None:
        """Reads what there is. At the end takes the program, or notes that it is not made."""
        part = os.read(self.number, 4096)
        self.said += part
        if not part:
            self.is_made = self.said.strip() == b"0"
            if self.is_made:
                self.take()


def needs_program(unit: list[unittest.TestCase]) -> bool:
    """Returns whether a test of a unit needs the program."""
    return any(test.needs_program for test in unit)


def not_run(units: list[list[unittest.TestCase]]) -> Outcome:
    """Returns the failure of a build, with the tests that do not run."""
    count = sum(map(len, units))
    return Outcome(BUILD, FAILED, 1, 0.0, f"{count} tests did not run: the program that they need is not made", "")


def started(context, unit: list[unittest.TestCase]):
    """Starts a unit. Returns the connection that has its results, and its process."""
    answer, sends = context.Pipe(duplex=False)
    process = context.Process(target=answer_unit, args=(unit, sends))
    process.start()
    with contextlib.suppress(OSError):      # the process does the same: one of the two is first
        os.setpgid(process.pid, process.pid)
    sends.close()
    return answer, process


def interrupt(processes: list) -> None:
    """Ends processes and all that they started: they remove their files, or are killed."""
    for number in (signal.SIGHUP, signal.SIGINT, signal.SIGTERM) if processes else ():
        signal.signal(number, signal.SIG_IGN)
    for number in (signal.SIGINT, signal.SIGKILL):
        for process in processes:
            with contextlib.suppress(OSError):
                os.killpg(process.pid, number)
        end = time.monotonic() + SECONDS_TO_END
        for process in processes:
            process.join(max(0.0, end - time.monotonic()))


def run_all(tests: Iterable[unittest.TestCase], jobs: int, build: Build | None = None) -> Iterator[Outcome]:
    """Runs tests, `jobs` units at once. Yields each result as soon as it is known. While the program
    is made, one processor is left to that, and the tests that need it wait."""
    context, waiting, running = multiprocessing.get_context("fork"), units_of(tests), {}
    try:
        while waiting or running:
            is_made = build is None or build.is_made
            if is_made is False and any(map(needs_program, waiting)):
                yield not_run([unit for unit in waiting if needs_program(unit)])
                waiting = [unit for unit in waiting if not needs_program(unit)]
                continue
            ready = [unit for unit in waiting if is_made or not needs_program(unit)]
            most = max(1, jobs - (is_made is None))
            for unit in ready[:max(0, most - len(running))]:
                waiting.remove(unit)
                answer, process = started(context, unit)
                running[answer] = unit, process
            for answer in connection.wait([*running, *([build.number] if is_made is None else [])]):
                if build and answer == build.number:
                    build.read()
                else:
                    unit, process = running.pop(answer)
                    yield from ended(unit, process, answer)
    finally:
        interrupt([process for _, process in running.values()])
