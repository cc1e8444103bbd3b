"""Tests of `--test`: over which program the tests run, and what is built for them."""

import os
import signal
import subprocess

from tests.launcher.build_tests import has_built
from tests.launcher.repository_copy import call, comes_to_be, copy_tests, environment, give_kit
from tests.launcher.unproved_tests import is_cached

MAKING = "irv: making the unproved build: this takes a minute or two"
NOTHING = "irv: nothing is proved by this: the tests ran over the unproved build"


def unproved(top):
    """Returns the place of the unproved build."""
    return top.resolve() / "out/unproved/irv-unproved"


def tests_the_proved_program(top):
    """`--test` tests the program if it is built of these sources, and builds nothing."""
    call(top, "--build")
    program = top.resolve() / "crates/irv/out/irv"
    answers = [call(top, "--test", *words) for words in ([], ["html", "csv"])]
    return answers == [(b"", b"", 3, ["begun", f"run: --program {program}{words}"])
                       for words in ("", " html csv")]


def tests_the_unproved_build(top):
    """Otherwise `--test` makes the unproved build once, tests it, and says that this proves
    nothing."""
    give_kit(top)
    (top / "crates/irv/out").mkdir()
    (top / "crates/irv/out/irv").write_text("#!/bin/sh\n")
    (top / "crates/irv/out/irv").chmod(0o755)
    first = call(top, "--test", "html")
    again = call(top, "--test")
    return (is_cached(top) and first[::2] == again[::2] == (b"", 3)
            and [line for line in first[3] if line.endswith(": try")] == ["irv: try"]
            and not has_built(first[3]) and first[3][-1] == f"run: --program {unproved(top)} html"
            and again[3] == ["begun after the build",
                             f"run: --program {unproved(top)}"]
            and MAKING in first[1].decode() and MAKING not in again[1].decode()
            and first[1].decode().splitlines()[-1] == again[1].decode().splitlines()[-1] == NOTHING)


def begins_during_the_build(top):
    """The tests begin before the unproved build is made: here it is made only after that."""
    give_kit(top)
    (top / "waits").write_text("")
    _, errors, status, calls = call(top, "--test")
    return (status == 3 and "begun" in calls and calls[-1] == f"run: --program {unproved(top)}"
            and errors.decode().splitlines()[-1] == NOTHING)


def fails_without_the_build(top):
    """If the unproved build fails, or a source changes meanwhile, `--test` says why, with status
    125, and nothing is cached."""
    give_kit(top)
    for name, cause in (("broken", "irv: cannot compile the sources"),
                        ("unmade", "irv: cannot make the unproved build: "),
                        ("edit", "irv: sources were edited during the build: ")):
        (top / name).write_text("")
        output, errors, status, _ = call(top, "--test")
        (top / name).unlink()
        lines = errors.decode().splitlines()
        if (output, status) != (b"", 125) or not any(line.startswith(cause) for line in lines) \
                or lines[-1] != "irv: the unproved build is not made: its lines above have the cause" \
                or list(top.glob("irv-making.*")) or (name == "broken") != ("error: no such word" in lines):
            return False
    return True


def builds_nothing_for_other_tests(top):
    """If the named tests need no program, or do not exist, nothing is built."""
    give_kit(top)
    needless, wrong = call(top, "--test", "lint"), call(top, "--test", "lint", "none")
    return (needless == (b"", b"", 3, ["begun", f"run: --program {unproved(top)} lint"])
            and wrong == (b"", b"tests/run: no test is called none\n", 2, []))


def is_gone(file):
    """Returns whether the process whose number is in a file has ended."""
    return not os.path.exists(f"/proc/{file.read_text().strip()}")


def heed_signals():
    """Makes the signals end a process, even if the caller ignores them."""
    for number in (signal.SIGINT, signal.SIGTERM, signal.SIGHUP):
        signal.signal(number, signal.SIG_DFL)


def ends_build_and_tests(top):
    """A signal to the launcher, or Ctrl-C, ends the build and the tests. No file remains."""
    give_kit(top)
    (top / "endless").write_text("")
    running = [top / "building", top / "testing"]
    for number, send in ((signal.SIGTERM, os.kill), (signal.SIGINT, os.killpg), (signal.SIGHUP, os.kill)):
        for file in running:
            file.unlink(missing_ok=True)
        with subprocess.Popen([top / "irv", "--test"], cwd=top, env=environment(top), start_new_session=True,
                              stdin=subprocess.DEVNULL, stdout=subprocess.DEVNULL, stderr=subprocess.PIPE,
                              preexec_fn=heed_signals) as called:
            begun = comes_to_be(lambda: all(file.exists() and file.read_text() for file in running))
            send(called.pid, number)
            errors = called.communicate()[1].decode()
        if not begun or called.returncode != 128 + number or "cannot" in errors \
                or not all(comes_to_be(lambda: is_gone(file)) for file in running) \
                or not comes_to_be(lambda: not list(top.glob("irv-making.*"))):
            return False
    return not unproved(top).exists()


TestOptionTests = copy_tests("TestOptionTests", (
    tests_the_proved_program, tests_the_unproved_build, begins_during_the_build,
    fails_without_the_build, builds_nothing_for_other_tests, ends_build_and_tests))
