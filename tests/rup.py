"""Tests of `rup`: refutations from certificate steps, and changes of them.

Each answer must be the independent refutation checker's. `tests/fuzz_rup` checks many more, and
other solvers' refutations.
"""

import subprocess
import tempfile
from concurrent.futures import ThreadPoolExecutor
from pathlib import Path

from irvtools.checkers import certificate, refutations, rup
from tests.support import case_files, handwritten_certificates
from tests.support.harness import ProgramTest, Test

# each configuration and the number of changes per text
PLANTS = (("line-with-boards", 60), ("platforms", 15), ("station", 15))
AT_ONCE = 4
SEED = 33

# texts over the four clauses of two variables, and the first bad item, or None if the text refutes
# them
HANDWRITTEN = [
    ("1 0 0", None), ("1 0", None), ("0", 1), ("d 1 2 0 1 0", None), ("1 -1 0 1 0", None), ("", 1),
    ("3 0", 1), ("1 0 2", 2), ("-1 0", None), ("2 0 d 1 2 0 0", None), ("1 1 0", None), ("1 2 0", 2),
    ("1 2 0 1 0", None), ("c 3 0\n1 0", None), ("1 0\nc x", None), ("1 0 0 0 0", None), ("1 0 0 x 0", 3),
    ("1 0 0 3 0", 3), ("1 0 0 2 0", None), ("1 0 d", 2), ("1 0 d 0", None), ("1 0 0 d", 3), ("d 1 0", 2),
    ("d d 1 0", 1), ("1 d 0", 1), ("1", 1), ("-0 0", 1), ("1\r\n\t0", None), ("1 0\rc x", 2), (" c 1 0", 1),
    ("1 0\x0b0", 1), ("01 0", 1), ("-2 -2 0", None), ("2 -2 0", 2), ("d 2 0 d 1 0 2 -2 0", 4),
]


def self_check():
    """Yields the checker's wrong answers to the hand-written texts."""
    for text, expected in HANDWRITTEN:
        got = rup.first_bad(*handwritten_certificates.TWO_VARIABLES, text.encode())
        if got != expected:
            yield f"{text!r}: expected {expected}, found {got}"


def queries_of(program, conf, directory):
    """Yields the queries of verify's certificate, each with the text of its steps' clauses."""
    path = directory / "certificate"
    done = subprocess.run([str(program), "verify", "--cert", str(path)], input=conf, stdout=subprocess.PIPE)
    if done.returncode != 0:
        raise certificate.CertificateError(f"verify ended with {done.returncode}: {done.stdout!r}")
    for kind, number, steps in certificate.read(path.read_bytes())[2]:
        yield kind, number, refutations.steps_text(steps)


def texts_of(text, count):
    """Yields a refutation and its changes, each with its number of items known to be right."""
    yield text, 0
    yield b"", 0
    items = text.count(b"\n")
    yield text + b"c done\n", items
    yield text + b"d 1 0\n", items
    yield text + b"x 0\n", items
    yield text + b"1", items
    yield text.replace(b"\n", b"\r\n"), items
    yield text.replace(b"\n", b" "), items
    yield from refutations.changes(text, count, SEED)


def configuration_faults(program, name, count, directory):
    """Returns the wrong answers to a configuration's texts, and the number of texts."""
    conf = (case_files.EXAMPLES / f"{name}.json").read_bytes()
    asked = refutations.Refutations(program, conf, directory)
    faults, checked = [], 0
    with ThreadPoolExecutor(AT_ONCE) as pool:
        for kind, number, text in queries_of(program, conf, directory):
            texts = list(texts_of(text, count))
            given = pool.map(lambda other: asked.answer(kind, number, other), [other for other, _ in texts])
            for (other, known), got in zip(texts, given):
                expected = asked.expected(kind, number, other, known)
                checked += 1
                if expected != got or (other == text and not expected.startswith("refuted")):
                    faults.append(f"{name}, {kind} {number}: expected {expected}, answered {got} "
                                  f"to {other[-200:]!r}")
    return faults, checked


class CheckerTests(Test):
    """The checker alone, on hand-written refutations."""

    def test_self_check(self):
        """The hand-written texts have their answers."""
        self.see(self_check(), len(HANDWRITTEN))


class RupTests(ProgramTest):
    """The program against the checker, on changed refutations."""

    def see_configuration(self, name, count):
        """Compares the answers to the changes of a configuration's refutations."""
        with tempfile.TemporaryDirectory(prefix="irv-rup-") as directory:
            faults, checked = configuration_faults(self.program, name, count, Path(directory))
        self.see(faults, checked)


def add_configurations():
    """Adds a test for each configuration."""
    for name, count in PLANTS:
        def test(self, name=name, count=count):
            self.see_configuration(name, count)
        setattr(RupTests, "test_" + name.replace("-", "_"), test)


add_configurations()
