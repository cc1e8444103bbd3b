"""Signals that end a tool, and what has to end with it.

A signal raises `Interrupted` in the main thread, so that the tool can clean up. That alone has two
gaps:

- Python drops an exception that is raised in a callback, such as those of a fork. The next `held`
  raises it again.
- A child that has just started is not yet known to the code that ends it. So signals are held
  while it starts:

    with held(), ended(subprocess.Popen(words)) as child, released():
        child.wait()

Code that cleans up is not interrupted by further signals.
"""

from __future__ import annotations

import contextlib
import os
import shutil
import signal
import subprocess
import sys
import threading
from pathlib import Path
from typing import Callable, Iterator

SIGNALS = (signal.SIGINT, signal.SIGTERM, signal.SIGHUP)


class Interrupted(BaseException):
    """Signal `number`, which ends the tool."""

    def __init__(self, number: int) -> None:
        super().__init__(number)
        self.number = number

    @property
    def status(self) -> int:
        """Returns the exit status after the signal."""
        return 128 + self.number


class Signals:
    """The signals so far: the first one's number or `None`, and how many came. They raise nothing
    if they are held, or if the work is done."""

    def __init__(self) -> None:
        self.forget()

    def forget(self) -> None:
        """Forgets all signals."""
        self.number, self.count, self.is_held, self.is_done = None, 0, False, False

    def come(self, number: int, _) -> None:
        """Handles a signal."""
        self.number = self.number or number
        self.count += 1
        self.check()

    def check(self) -> None:
        """Raises `Interrupted` if a signal came and is not handled yet."""
        if self.number and not (self.is_held or self.is_done or is_cleaning_up()):
            raise Interrupted(self.number)


CAME = Signals()        # within `interruptible`


def is_cleaning_up() -> bool:
    """Returns whether the calling code runs because of an `Interrupted`."""
    fault = sys.exc_info()[1]
    while fault is not None and not isinstance(fault, Interrupted):
        fault = fault.__context__
    return fault is not None


@contextlib.contextmanager
def interruptible() -> Iterator[None]:
    """Makes each ending signal raise `Interrupted`. Ignored signals stay ignored."""
    CAME.forget()
    before = {number: signal.getsignal(number) for number in SIGNALS}
    try:
        for number, handler in before.items():
            if handler is not signal.SIG_IGN:
                signal.signal(number, CAME.come)
        yield
        CAME.check()
    finally:
        for number, handler in before.items():
            signal.signal(number, handler)
        CAME.forget()


class Switched:
    """A block in which signals are held, or not. It is no generator: a signal could leave that
    suspended. Signals concern only the main thread."""

    def __init__(self, is_held: bool) -> None:
        self.is_held, self.before = is_held, None

    def __enter__(self) -> Signals:
        if threading.current_thread() is threading.main_thread():
            CAME.check()
            self.before, CAME.is_held = CAME.is_held, self.is_held
            CAME.check()
        return CAME

    def __exit__(self, kind, *_) -> None:
        if self.before is not None:
            CAME.is_held = self.before
            if kind is None:
                CAME.check()


def held() -> Switched:
    """Holds signals: in the block they are only counted. `Interrupted` is raised at its end."""
    return Switched(True)


def released() -> Switched:
    """Lets signals raise `Interrupted` in a part of a block that holds them."""
    return Switched(False)


def kill(child: subprocess.Popen) -> None:
    """Kills a child and waits for its end. Needs no lock of `Popen`: an interrupted call may have
    left it locked."""
    child.kill()
    if child.returncode is None:
        with contextlib.suppress(ChildProcessError):
            os.waitpid(child.pid, 0)
        child.returncode = -signal.SIGKILL


@contextlib.contextmanager
def ended(child: subprocess.Popen,
          end: Callable[[subprocess.Popen], None] = kill) -> Iterator[subprocess.Popen]:
    """Ends a child by `end` if an exception leaves the block. Signals have to be held."""
    try:
        yield child
    except BaseException:
        end(child)
        raise


@contextlib.contextmanager
def removed(directory: str) -> Iterator[Path]:
    """Removes a directory at the end of the block. Signals have to be held."""
    try:
        yield Path(directory)
    finally:
        shutil.rmtree(directory, ignore_errors=True)
