"""Compares the compiled checkers with certificate.py and rup.py on small texts: hand-written ones,
and thousands of repeatable random changes."""

from __future__ import annotations

import random
import re
import tempfile
from concurrent.futures import ThreadPoolExecutor
from pathlib import Path
from typing import Callable

from irvtools.checkers import certificate, compiled, dimacs, refutations, rup
from tests import rup as rup_tests
from tests.support import certificate_changes, handwritten_certificates
from tests.support.handwritten_certificates import STEPS_FOR_THREE, STEPS_FOR_TWO, THREE_VARIABLES, TWO_VARIABLES

SEED = 41
CHANGES = 600           # of each text
SMALL_FORMULAS = 150    # random formulas, each with ten texts
AT_ONCE = 4
GAPS = [b" ", b" ", b" ", b"\n", b"\n", b"\t", b"\r", b"\r\n", b"  ", b"\nc 1 0\n", b"\n c\n"]
BAD_FORMULAS = ["", "p cnf 1 0", "p cnf 1\n", "p cnf 01 0\n", "p cnf 1 1\n", "p cnf 1 1\n1 0\n0\n",
                "p cnf 1 1\n2 0\n", "p cnf 1 1\n1  0\n", "p cnf 1 1\n1 0 \n", "p cnf 1 1\n-0 0\n",
                "p cnf 1 1\n1\n", "P cnf 1 0\n",
                "p cnf 1 1\n1 0\r\n", "p cnf 1 1\n18446744073709551617 0\n", "p cnf 1 1\n+1 0\n", "p  cnf 1 0\n"]


def formula_text(formula):
    """Returns a formula as `export` prints it."""
    variables, clauses = formula
    lines = [f"p cnf {variables} {len(clauses)}", *(" ".join(map(str, (*clause, 0))) for clause in clauses)]
    return "".join(f"{line}\n" for line in lines).encode()


def larger(text):
    """Yields the text with 2^32 or 2^64 added to one of its numbers."""
    for found in re.finditer(rb"[0-9]+", text):
        for more in (2 ** 32, 2 ** 64):
            yield text[:found.start()] + str(int(found[0]) + more).encode() + text[found.end():]


# -- certificates

def whole_of(steps):
    """Returns a safe certificate in which these steps refute each query."""
    text = f"irv certificate 3|{handwritten_certificates.SAFE}|end|"
    return text.replace(STEPS_FOR_TWO, steps).replace("|", "\n").encode()


def handwritten(formula):
    """Yields the hand-written certificates in which each query has this formula."""
    for other, lines, _ in handwritten_certificates.CERTIFICATES:
        if other == formula:
            yield f"irv certificate 3|{lines}|end|".replace("|", "\n").encode()
    if formula == TWO_VARIABLES:
        yield from (lines.replace("|", "\n").encode("latin-1") for lines, _ in handwritten_certificates.AUDITED)


def random_hints(clauses, literals, chance):
    """Returns hints by which a clause follows if the random clause order allows it."""
    true, hints = {-literal for literal in literals}, []
    for number in chance.sample(range(len(clauses)), len(clauses)):
        unset = [literal for literal in clauses[number] if -literal not in true]
        if len(unset) > 1 or true & set(unset):
            continue
        hints.append(number + 1)
        true |= set(unset)
        if not unset:
            break
    return hints


def random_step(clauses, chance):
    """Returns a step that often follows from these clauses."""
    literals = [chance.choice([-3, -2, -1, 1, 2, 3]) for _ in range(chance.randrange(4))]
    hints = random_hints(clauses, literals, chance)
    if chance.randrange(4) == 0:
        hints.insert(chance.randrange(len(hints) + 1), chance.randrange(1, len(clauses) + 3))
    return "step " + " ".join(map(str, [*literals, 0, *hints, 0]))


def changed_certificates(formula, steps):
    """Yields changes of a small certificate, and it with a random step before each query's last."""
    text, chance = whole_of(steps), random.Random(SEED)
    yield from (other for other, _ in (*certificate_changes.named(text), *certificate_changes.cuts(text)))
    yield from certificate_changes.at_random(text, CHANGES, SEED)
    yield from larger(text)
    before, _, last = steps.rpartition("|")
    clauses = [*formula[1], *(certificate.read_step(line, 0)[0] for line in before.split("|"))]
    for _ in range(CHANGES):
        yield whole_of(f"{before}|{random_step(clauses, chance)}|{last}")


SMALL = ((TWO_VARIABLES, STEPS_FOR_TWO), (THREE_VARIABLES, STEPS_FOR_THREE))


def certificate_faults(path: Path, directory: Path) -> tuple[list[str], int]:
    """Returns the texts about which the compiled checker and certificate.py differ, and how many
    there were."""
    faults, answers = [], []
    for number, (formula, steps) in enumerate(SMALL):
        texts = [*handwritten(formula), *changed_certificates(formula, steps)]
        files = [directory / f"certificate-{number}-{place}" for place in range(len(texts))]
        for file, text in zip(files, texts):
            file.write_bytes(text)
        checker = compiled.CompiledCertificateChecker(path, directory, lambda *_, known=formula: formula_text(known))
        expected = [certificate.audited(text, lambda *_, known=formula: known) for text in texts]
        faults += differences(formula, texts, expected, checker.audited(files))
        answers += expected
    return [*faults, *variety_faults(answers, "accepted")], len(answers)


# -- refutations

def handwritten_refutations():
    """Returns the hand-written refutations of tests/rup.py, each with its formula."""
    return [(TWO_VARIABLES, text.encode()) for text, _ in rup_tests.HANDWRITTEN]


def changed_refutations():
    """Yields changes of two small refutations, each with its formula."""
    for formula, steps in SMALL:
        read = [certificate.read_step(line, 0) for line in steps.split("|")]
        text, chance = refutations.steps_text(read), random.Random(SEED)
        yield from ((formula, other) for other in larger(text))
        for other in (text, *(other for other, _ in refutations.changes(text, CHANGES, SEED))):
            yield formula, other
            yield formula, certificate_changes.bytes_changed(other, chance) if other else b""


def random_refutations():
    """Yields random texts, each with a random formula, with all kinds of white space between words."""
    chance = random.Random(SEED)
    for _ in range(SMALL_FORMULAS):
        variables = chance.randrange(1, 6)
        literals = [sign * variable for variable in range(1, variables + 1) for sign in (1, -1)]
        clauses = [tuple(chance.choice(literals) for _ in range(chance.choice([0, 1, 2, 2, 2, 3, 3, 3, 4])))
                   for _ in range(chance.randrange(4 * variables))]
        formula = variables, [clause for clause in clauses if clause or chance.randrange(8) == 0]
        for _ in range(10):
            yield formula, random_text(chance, [str(literal).encode() for literal in literals])


def random_text(chance, literals):
    """Returns a text of a few items, mostly well-formed."""
    words = []
    for _ in range(chance.randrange(8)):
        words += [b"d"] if chance.randrange(8) == 0 else []
        words += [chance.choice(literals) for _ in range(chance.randrange(4))]
        words += [chance.choice(refutations.OTHER_WORDS)] if chance.randrange(20) == 0 else []
        words += [b"0"] if chance.randrange(30) else []
    return b"".join(part for word in words for part in (word, chance.choice(GAPS)))


def rup_faults(path: Path, directory: Path) -> tuple[list[str], int]:
    """Returns the texts about which the compiled checker and rup.py differ, and how many there
    were."""
    texts = [*handwritten_refutations(), *changed_refutations(), *random_refutations()]
    checker_of = cached(lambda known: compiled.CompiledRupChecker(path, directory, lambda *_: known))
    expected = [rup.answer("step 1", *formula, text) for formula, text in texts]
    with ThreadPoolExecutor(AT_ONCE) as pool:
        got = list(pool.map(lambda one: checker_of(formula_text(one[0])).answer("step", 1, one[1]), texts))
    faults = [fault for (formula, text), one, other in zip(texts, expected, got)
              for fault in differences(formula, [text], [one], [other])]
    return [*faults, *variety_faults(expected, "refuted"), *formula_faults(path, directory)], len(texts)


# -- both

def cached(make):
    """Returns `make` with one call per argument."""
    made = {}

    def one(known):
        if known not in made:
            made[known] = make(known)
        return made[known]
    return one


def differences(formula, texts, expected, got):
    """Yields the texts over a formula about which the compiled checker and Python differ."""
    for text, one, other in zip(texts, expected, got):
        if one != other:
            yield f"the compiled checker says {other}, and Python {one} about {text!r} over {formula}"


def formula_faults(path, directory):
    """Yields the texts that Python or the compiled checker wrongly accepts as formulas."""
    for text in BAD_FORMULAS:
        try:
            dimacs.read(text.encode())
            yield f"{text!r} is a formula"
        except dimacs.DimacsError:
            pass
        try:
            compiled.CompiledRupChecker(path, directory, lambda *_, known=text: known.encode()).answer("step", 1, b"")
            yield f"the compiled checker reads {text!r} as a formula"
        except compiled.CheckerError as fault:
            if "is no formula" not in str(fault):
                yield f"{text!r}: {fault}"


def variety_faults(answers, good):
    """Yields a fault if under a tenth of the texts is right, or the others fail in under six ways."""
    right = sum(answer.startswith(good) for answer in answers)
    bad = {answer for answer in answers if not answer.startswith(good)}
    if 10 * right < len(answers) or len(bad) < 6:
        yield f"{right} of {len(answers)} texts are right, and the others fail in {len(bad)} ways"


def compare(name: str, faults_of: Callable[[Path, Path], tuple[list[str], int]]) -> tuple[int, int]:
    """Compiles a checker, compares it with Python and prints the differences.

    Returns how many comparisons there were (0 without gcc, otherwise 1), and how many failed."""
    with tempfile.TemporaryDirectory(prefix="irv-compiled-") as made:
        path = compiled.compiled(name, Path(made))
        if path is None:
            print("gcc is not installed: Python checks all texts, which takes hours", flush=True)
            return 0, 0
        faults, count = faults_of(path, Path(made))
    print(*(f"FAILED {fault}" for fault in faults),
          f"{name}: {count} small texts, {len(faults)} differences from Python", sep="\n", flush=True)
    return 1, int(bool(faults))
