"""Test classes, the runner's settings, and functions as test cases."""

from __future__ import annotations

import sys
import unittest
from dataclasses import dataclass
from pathlib import Path
from typing import Callable, Iterable

from irvtools.paths import PROGRAM

SHOWN = 12              # faults shown of a failed test


@dataclass
class Settings:
    """The runner's arguments: the program, whether long tests run, and whether it is the program that CI proves."""

    program: Path = PROGRAM
    is_long: bool = False
    is_proved: bool = True


SETTINGS = Settings()


class Test(unittest.TestCase):
    """A test that needs no program. `checks` counts its method's checks."""

    needs_program = False
    checks = 1

    def see(self, faults: Iterable[object], checks: int = 1) -> None:
        """Fails with these faults if there are any. `checks` counts the checks made."""
        found = list(faults)
        self.checks = checks
        if found:
            more = [f"and {len(found) - SHOWN} more"] if len(found) > SHOWN else []
            self.fail("\n".join(map(str, [*found[:SHOWN], *more])))


class ProgramTest(Test):
    """A test that calls the program."""

    needs_program = True

    @property
    def program(self) -> Path:
        """Returns the tested program."""
        return SETTINGS.program

    @property
    def is_long(self) -> bool:
        """Returns whether long tests run."""
        return SETTINGS.is_long


class LongTest(ProgramTest):
    """A test that runs only with `--long`."""

    def setUp(self) -> None:
        """Skips the test without `--long`."""
        if not SETTINGS.is_long:
            self.skipTest("takes long; --long runs it")


class Counted:
    """The faults that a check yields. After their end `checks` is the number that the check returned, or 1."""

    def __init__(self, faults: Iterable[object]) -> None:
        self.faults, self.checks = faults, 1

    def __iter__(self):
        returned = yield from self.faults
        self.checks = 1 if returned is None else returned


def test_case(name: str, functions: Iterable[Callable], base: type = ProgramTest) -> type:
    """Returns a test case class with a method for each function `check_..`. Such a function takes the program
    and whether long tests run, and yields faults. It may return the number of its checks."""
    def method(function):
        def test(self):
            counted = Counted(function(SETTINGS.program, SETTINGS.is_long))
            found = list(counted)
            self.see(found, counted.checks)
        test.__doc__ = function.__doc__
        return test

    methods = {"test_" + each.__name__.removeprefix("check_"): method(each) for each in functions}
    return type(name, (base,), {**methods, "__module__": sys._getframe(1).f_globals["__name__"]})
