"""Tests of `audit` on changed certificates of verify.

The changes are those of `support/certificate_changes.py`: some with evident answers, many cuts, and
some hundred repeatable random ones. Each answer, with its line number, must be that of the
independent checker over the formulas of `irv export`. `tests/fuzz_audit` checks many more.
"""

import tempfile
from concurrent.futures import ThreadPoolExecutor
from pathlib import Path

from irvtools.checkers import certificate
from irvtools.generators import configurations
from tests.support import audits, case_files, certificate_changes
from tests.support.handwritten_certificates import TWO_VARIABLES, WHOLE
from tests.support.harness import ProgramTest, Test

TAKES_LONG = True

# each configuration and its number of random changes
PLANTS = (("line-with-boards", 300), ("platforms", 60), ("station", 60))
AT_ONCE = 4
SEED = 30


def configuration_of(name):
    """Returns the text of a file of examples/, or of a generated configuration."""
    kind, _, count = name.partition(" ")
    return configurations.made(kind, count) if count else (case_files.EXAMPLES / f"{name}.json").read_bytes()


def changes_of(audit, count):
    """Yields the changes of a certificate with their answers, evident ones first."""
    text = audit.certificate
    yield from certificate_changes.named(text)
    yield from certificate_changes.cuts(text)
    for other in certificate_changes.at_random(text, count, SEED):
        yield other, audit.expected(other)


def configuration_faults(program, name, count, directory):
    """Returns the wrong answers to a certificate's changes, and the number of changes."""
    audit = audits.Audit(program, configuration_of(name), directory)
    changes = list(changes_of(audit, count))
    with ThreadPoolExecutor(AT_ONCE) as pool:
        given = list(pool.map(audit.answer, [other for other, _ in changes]))
    faults = []
    for (other, expected), got in zip(changes, given):
        if not expected == got == audit.expected(other):
            faults.append(audit.fault(other, expected, got))
    return faults, len(changes)


def self_check():
    """Yields the checker's wrong answers to changes of a hand-written certificate."""
    text = WHOLE.replace("|", "\n").encode()
    changes = [*certificate_changes.named(text), *certificate_changes.cuts(text)]
    for other, expected in changes:
        got = certificate_changes.answer(text, other, lambda kind, number: TWO_VARIABLES)
        if got != expected:
            yield f"expected {expected}, found {got} in {other!r}"
    for other in certificate_changes.at_random(text, 1000, SEED):
        got = certificate_changes.answer(text, other, lambda kind, number: TWO_VARIABLES)
        whole = certificate.audited(other, lambda kind, number: TWO_VARIABLES)
        if got != whole:
            yield f"found {got} after the known lines, and {whole} in the whole text {other!r}"


class CheckerTests(Test):
    """The checker alone, on a hand-written certificate."""

    def test_self_check(self):
        """The evident changes of a hand-written certificate have their answers."""
        self.see(self_check())


class AuditTests(ProgramTest):
    """The program against the checker, on changed certificates."""

    def see_configuration(self, name, count):
        """Compares the answers to the changes of a configuration's certificate."""
        with tempfile.TemporaryDirectory(prefix="irv-audit-") as directory:
            faults, changes = configuration_faults(self.program, name, count, Path(directory))
        self.see(faults, changes)


def add_configurations():
    """Adds a test for each configuration."""
    for name, count in PLANTS:
        def test(self, name=name, count=count):
            self.see_configuration(name, count)
        setattr(AuditTests, "test_" + name.replace("-", "_"), test)


add_configurations()
