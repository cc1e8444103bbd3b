"""The output of CI: its tree, each command's count in the order of `.ci/run`, and each test's
result."""

from __future__ import annotations

import re
from dataclasses import dataclass, field

COUNT = re.compile(r"^(\d+) passed, (\d+) failed(?:, (\d+) skipped)?$", re.M)
CALL = re.compile(r"^ *(rt ci|(?:tests|tools)/\w+(?: [^|\n]*?)?)(?: \| .*?)?(?: \|\| .*)?$", re.M)
TREE = re.compile(r"^CI (begun|passed), tree of git: (.+)$", re.M)
# a test of tests/run: result, name, number of checks, and the reason for a skip
TEST = re.compile(r"^(passed|skipped) ([\w.]+) \((?:(\d+) checks, )?[0-9.]+ s\)(?:: (.*))?$", re.M)


class Unread(Exception):
    """A log that is not of a passing CI run; the message says why."""


@dataclass
class Check:
    """A command of CI with its counts."""
    command: str
    passed: int
    skipped: int


@dataclass
class Tests:
    """One subject's tests: those that passed with the number of their checks, and the skipped ones
    with the reason."""
    counts: dict[str, int] = field(default_factory=dict)
    skipped: dict[str, str] = field(default_factory=dict)

    @property
    def passed(self) -> int:
        """The number of tests that passed."""
        return len(self.counts)

    @property
    def checks(self) -> int:
        """The number of their checks."""
        return sum(self.counts.values())


def checks_of(script: str) -> list[str]:
    """Returns CI's counting commands in the script's order, which is that of their counts in the log."""
    return [match[1].strip() for match in CALL.finditer(script)]


def check_tree(log: str, tree: str) -> None:
    """Checks that CI began and passed over this tree."""
    found = TREE.findall(log)
    if [word for word, _ in found] != ["begun", "passed"]:
        raise Unread("the log does not say over which tree CI began and passed: it is not whole, "
                     "or not of CI")
    for word, name in found:
        if name != tree:
            raise Unread(f"CI has {word} over another tree: {name}, and the tree here is {tree}")


def read(script: str, log: str, tree: str) -> list[Check]:
    """Returns CI's commands with counts. `rt ci` may print counts besides its last one."""
    commands = checks_of(script)
    counts = [(int(good), int(bad), int(left or 0)) for good, bad, left in COUNT.findall(log)]
    if "rt ci" not in commands:
        raise Unread(".ci/run does not call rt ci")
    if len(counts) < len(commands):
        raise Unread(f"the log has {len(counts)} counts, and .ci/run {len(commands)} commands that "
                     "count: the log is not whole, or not of CI")
    before = commands.index("rt ci")
    after = len(commands) - before - 1
    own = counts[:before] + [counts[len(counts) - after - 1]] + (counts[-after:] if after else [])
    failed = [command for command, (_, bad, _) in zip(commands, own) if bad]
    if failed or any(bad for _, bad, _ in counts):
        raise Unread(f"CI did not pass: {', '.join(failed) or 'rt ci'}")
    check_tree(log, tree)
    return [Check(command, passed, skipped) for command, (passed, _, skipped) in zip(commands, own)]


def tests_in(log: str) -> dict[str, Tests]:
    """Returns the test results by subject, in name order."""
    found = {}
    for result, name, checks, why in TEST.findall(log):
        subject = found.setdefault(name.partition(".")[0], Tests())
        if result == "passed":
            subject.counts[name] = int(checks or 1)
        else:
            subject.skipped[name] = why
    return dict(sorted(found.items()))
