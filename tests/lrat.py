"""Tests of `tools/lrat` and `tools/audit`: certificates of worked plants, with an LRAT checker.

The plants are the safe ones of `examples/`, and lines of 1, 2 and 4 generated stations. Each query
of `tools/lrat` must be a refutation. Then single digits all over it are changed. The LRAT checker
must refuse each change, unless the certificate checker agrees that it is still a refutation.
"""

import subprocess
import tempfile
from pathlib import Path
from tests.support import case_files
from irvtools.checkers import certificate
from irvtools.generators import configurations
from irvtools.checkers import dimacs
from irvtools.checkers import lrat
from irvtools.paths import TOP
from tests.support.harness import ProgramTest, Test

TAKES_LONG = True

EXAMPLES = ("line-with-boards", "platforms", "station", "station-protected", "terminus-throat")
STATIONS = (1, 2, 4)
# few changes for refutations with many steps: each is checked whole
CHANGES, MOST_STEPS, FEWER_CHANGES = 12, 200, 2

# every assignment of two variables breaks a clause
CNF = "p cnf 2 4\n1 2 0\n1 -2 0\n-1 2 0\n-1 -2 0\n"
HANDWRITTEN = [
    ("5 1 0 1 2 0|6 0 5 3 4 0", ""),
    ("7 1 0 1 2 0|9 0 7 3 4 0", ""),
    ("5 1 0 1 2 0|5 d 1 2 0|6 0 5 3 4 0", ""),
    ("5 1 2 0 1 0|6 1 0 1 2 0|7 0 6 3 4 0", ""),
    ("5 1 0 1 3 0|6 0 5 3 4 0", "neither unit nor false"),
    ("5 1 0 1 1 2 0|6 0 5 3 4 0", "neither unit nor false"),
    ("5 1 0 1 9 0|6 0 5 3 4 0", "no clause 9"),
    ("5 1 0 1 0|6 0 5 3 4 0", "no false clause"),
    ("5 1 0 0|6 0 5 3 4 0", "no false clause"),
    ("5 1 0 1 2 0|6 0 3 4 0", "neither unit nor false"),
    ("5 1 0 1 2 0|5 d 3 0|6 0 5 3 4 0", "no clause 3"),
    ("4 1 0 1 2 0|6 0 4 3 4 0", "isn't greater"),
    ("5 1 0 1 2 0|5 0 5 3 4 0", "isn't greater"),
    ("5 1 0 1 2 0", "isn't derived"),
    ("5 1 0 1 2|6 0 5 3 4 0", "no line"),
    ("5 1 0 -1 2 0|6 0 5 3 4 0", "by resolution"),
    ("", "isn't derived"),
]


def said_of(formula, proof):
    """Returns the checker's fault in a refutation, or an empty text."""
    try:
        lrat.check(formula, proof)
        return ""
    except lrat.LratError as fault:
        return str(fault)


def self_check():
    """Yields the checker's wrong answers to the hand-written refutations."""
    for lines, wanted in HANDWRITTEN:
        said = said_of(CNF, "".join(f"{line}\n" for line in lines.split("|") if line))
        if (wanted not in said) if wanted else said:
            yield f"{lines}: wanted {wanted!r}, said {said!r}"


def as_steps(proof):
    """Returns a refutation's lines as certificate steps."""
    return [certificate.read_step(f"step {line.partition(' ')[2]}", number)
            for number, line in enumerate(proof.splitlines(), 1)]


def is_certified(formula, proof):
    """Returns whether the certificate checker accepts the refutation."""
    try:
        steps = as_steps(proof)
        certificate.checked_steps("query", formula, steps, False)
        return certificate.is_refuted(steps)
    except certificate.CertificateError:
        return False


def changed(proof, count):
    """Yields the refutation with one digit changed, at about `count` places after line numbers."""
    places, is_after = [], False
    for place, character in enumerate(proof):
        is_after = character != "\n" and (is_after or character == " ")
        if is_after and character.isdigit():
            places.append(place)
    for place in places[::max(1, len(places) // count)]:
        digit = int(proof[place]) % 9 + 1
        yield f"{proof[:place]}{digit}{proof[place + 1:]}"


def query_faults(path):
    """Returns a written query's faults, and how many changes were tried and refused."""
    formula, proof = path.read_text(), path.with_suffix(".lrat").read_text()
    said = said_of(formula, proof)
    if said:
        return [f"{path.stem}: {said}"], 0, 0
    count = CHANGES if proof.count("\n") <= MOST_STEPS else FEWER_CHANGES
    faults, tried, refused, clauses = [], 0, 0, dimacs.read(path.read_bytes())
    for other in changed(proof, count):
        said = said_of(formula, other)
        tried, refused = tried + 1, refused + bool(said)
        if not said and not is_certified(clauses, other):
            faults.append(f"{path.stem}: a refutation with a digit changed is accepted")
    return faults, tried, refused


def audit_faults(program, conf_file, cert):
    """Yields the wrong answers of `tools/audit`: it must accept the certificate, refuse it with
    another last hint, and do neither without a file."""
    text = cert.read_bytes()
    place = text.rindex(b" 0\nend\n") - 1
    digit = int(text[place:place + 1]) % 9 + 1
    other, none = cert.with_name("other"), cert.with_name("none")
    other.write_bytes(b"%s%d%s" % (text[:place], digit, text[place + 1:]))
    calls = (cert, 0, b"accepted: safe "), (other, 1, b"refused: "), (none, 2, b"")
    for file, wanted, beginning in calls:
        done = subprocess.run([TOP / "tools/audit", "--program", program, conf_file, file],
                              stdout=subprocess.PIPE, stderr=subprocess.DEVNULL)
        if done.returncode != wanted or not done.stdout.startswith(beginning):
            yield f"tools/audit of {file.name} ends with {done.returncode}: {done.stdout!r}"


def plant_faults(program, plant):
    """Returns the faults of a plant's queries, their number, and how many changes were tried and
    refused."""
    with tempfile.TemporaryDirectory(prefix="irv-lrat-") as name:
        directory = Path(name)
        (directory / "conf").write_bytes(plant)
        files = [directory / "conf", directory / "cert"]
        calls = [[program, "verify", "--cert", directory / "cert"],
                 [TOP / "tools/lrat", "--program", program, *files, directory / "queries"]]
        for words in calls:
            done = subprocess.run(words, input=plant, stdout=subprocess.PIPE, stderr=subprocess.STDOUT)
            if done.returncode != 0:
                return [f"{words[0]} ended with {done.returncode}: {done.stdout!r}"], 0, 0, 0
        found = [query_faults(path) for path in sorted((directory / "queries").glob("*.cnf"))]
        faults = list(audit_faults(program, *files))
    faults += [fault for part, _, _ in found for fault in part]
    return faults, len(found), sum(part[1] for part in found), sum(part[2] for part in found)


class CheckerTests(Test):
    """The checker alone, on hand-written refutations."""

    def test_self_check(self):
        """The hand-written texts have their answers."""
        self.see(self_check(), len(HANDWRITTEN))


class LratTests(ProgramTest):
    """The certificates of worked plants."""

    def see_plant(self, plant):
        """Checks a plant's queries. At least nine of ten changed digits are refused."""
        faults, queries, tried, refused = plant_faults(self.program, plant)
        if 10 * refused < 9 * tried:
            faults.append(f"only {refused} of {tried} changed digits are refused")
        self.see(faults, max(queries, 1))


def add_plants():
    """Adds a test for each plant."""
    plants = {name: (case_files.EXAMPLES / f"{name}.json").read_bytes() for name in EXAMPLES}
    plants |= {f"stations {count}": configurations.made("stations", str(count)) for count in STATIONS}
    for name, plant in plants.items():
        def test(self, plant=plant):
            self.see_plant(plant)
        setattr(LratTests, "test_" + name.replace("-", "_").replace(" ", "_"), test)


add_plants()
