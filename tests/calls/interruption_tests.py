"""Tests of interruptions: no signal is lost, no child is left, and no clean-up is interrupted."""

import os
import signal
import subprocess
import sys
import tempfile
import threading
import weakref
from pathlib import Path

from irvtools.calls.interruption import Interrupted, ended, held, interruptible, released, removed
from tests.support.harness import Test

FIRST, SECOND = signal.SIGTERM, signal.SIGHUP


class Referred:
    """An object with a callback at its end."""


def lose(number):
    """Sends a signal to this process in a callback, from which Python drops exceptions."""
    dropped, shown = [], sys.unraisablehook
    sys.unraisablehook = dropped.append
    referred = Referred()
    reference = weakref.ref(referred, lambda _: signal.raise_signal(number))
    del referred
    sys.unraisablehook = shown
    return len(dropped), reference() is None


class InterruptionTests(Test):
    """Tests of `irvtools.calls.interruption` in this process."""

    def test_lost_exception(self):
        """A dropped exception is raised again when a child starts, and at the end of all work."""
        with self.assertRaises(Interrupted) as raised, interruptible():
            self.assertEqual(lose(FIRST), (1, True))
            with held():
                self.fail("a block begins after a signal")
        self.assertEqual(raised.exception.status, 128 + FIRST)
        with self.assertRaises(Interrupted), interruptible():
            lose(FIRST)
        with self.assertRaises(Interrupted), interruptible():
            lose(FIRST)
            signal.raise_signal(SECOND)
            self.fail("a second signal raises nothing")

    def test_child_that_starts(self):
        """A signal while a child starts ends that child."""
        parent, children = os.getpid(), []
        with self.assertRaises(Interrupted), interruptible(), held():
            children.append(subprocess.Popen(["sleep", "600"],
                                             preexec_fn=lambda: os.kill(parent, FIRST)))
            with ended(children[0]) as child, released():
                child.wait()
        self.assertEqual(children[0].returncode, -signal.SIGKILL)

    def test_child_with_a_fault(self):
        """Another exception ends the child too. A child that has ended keeps its status."""
        with self.assertRaises(OSError), held(), ended(subprocess.Popen(["sleep", "600"])) as child:
            raise OSError
        self.assertEqual(child.returncode, -signal.SIGKILL)
        with self.assertRaises(OSError), held(), ended(subprocess.Popen(["false"])) as child:
            child.wait()
            raise OSError
        self.assertEqual(child.returncode, 1)

    def test_held(self):
        """Held signals are counted, and raise at the end of the outer block. A thread holds none."""
        steps = []
        with self.assertRaises(Interrupted), interruptible(), held() as signals:
            signal.raise_signal(FIRST)
            with held():
                signal.raise_signal(SECOND)
            steps.append((signals.number, signals.count))
        self.assertEqual(steps, [(FIRST, 2)])
        with self.assertRaises(Interrupted), interruptible():
            thread = threading.Thread(target=lambda: steps.append(held().__enter__().is_held))
            thread.start()
            thread.join()
            signal.raise_signal(FIRST)
            self.fail("a thread holds signals")
        self.assertEqual(steps[1:], [False])

    def test_clean_up(self):
        """Further signals interrupt no clean-up, and nothing after the work is done."""
        steps = []
        with self.assertRaises(Interrupted) as raised, interruptible():
            try:
                signal.raise_signal(FIRST)
            finally:
                signal.raise_signal(SECOND)
                steps.append("cleaned up")
        self.assertEqual((steps, raised.exception.number), (["cleaned up"], FIRST))
        with interruptible(), held() as signals:
            signals.is_done = True
            signal.raise_signal(FIRST)

    def test_directory(self):
        """A directory is removed after a signal that came when it was made."""
        with self.assertRaises(Interrupted), interruptible(), held():
            name = tempfile.mkdtemp(prefix="irv-test-")
            signal.raise_signal(FIRST)
            with removed(name) as directory, released():
                self.fail(f"{directory} is used")
        self.assertFalse(Path(name).exists())

    def test_handlers(self):
        """Ignored signals stay ignored, and the handlers before come back."""
        before = signal.signal(SECOND, signal.SIG_IGN)
        with interruptible():
            signal.raise_signal(SECOND)
        self.assertEqual(signal.signal(SECOND, before), signal.SIG_IGN)
        self.assertEqual(signal.getsignal(FIRST), signal.SIG_DFL)
