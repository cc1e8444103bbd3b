"""Tests of the verdict's word: table rows, ranking, and missing answers."""

import hashlib
import subprocess
import tempfile
from pathlib import Path

from irvtools.calls import verdict as rules
from irvtools.calls.proved_program import is_proved
from irvtools.calls.verdict import Answered, verdict
from irvtools.paths import TOP
from tests.support.harness import ProgramTest, Test, test_case

RUN, FROM_STATE = "run 1\nstart\nend\n", "run 1\nstate\nevents\nend\n"
CLEAN = Answered("check", "strict", 0, "clean\n")
FREE_CLEAN = Answered("check", "free", 0, "clean\n")
SAFE = Answered("verify", "free", 0, "safe k=2\n")
HAZARD = Answered("replay", "free", 0, "hazard two a\n", run=RUN)
UNSAFE = Answered("verify", "free", 1, "unsafe steps=3 hazard=wrong p1\nrun 1\nstart\nend\n")
DRIVEN = Answered("drive", "strict", 1, "hazard two a steps=4\nrun 1\nstart\nend\n")
NO_HAZARD = Answered("replay", "free", 6, "no hazard\n", run=RUN)
LATE = Answered("verify", "free", None, "")


def refusal(*lines, columns="strict", command="check", status=5, is_whole=True):
    """Returns a report of broken rules."""
    return Answered(command, columns, status, "".join(f"refused {line}\n" for line in lines), is_whole)


DEVIATES = refusal("C4 routes[0]", "C5 routes[1] routes[2]", "C6 routes[0]", "C8 routes[3]")
OTHER = refusal("C4 routes[0]", "C1 routes[1]")

ROWS = [
    (rules.HAZARD_FOUND, [HAZARD]), (rules.HAZARD_FOUND, [UNSAFE]), (rules.HAZARD_FOUND, [DRIVEN]),
    (rules.HAZARD_FOUND, [CLEAN, SAFE, HAZARD]), (rules.HAZARD_FOUND, [DEVIATES, HAZARD]),
    (rules.HAZARD_FOUND, [OTHER, LATE, HAZARD]),
    (rules.SAFE, [CLEAN]), (rules.SAFE, [CLEAN, LATE]), (rules.SAFE, [SAFE]),
    (rules.SAFE, [FREE_CLEAN, SAFE]), (rules.SAFE, [OTHER, SAFE]),
    (rules.SAFE, [CLEAN, Answered("verify", "strict", 4, "spent conflicts=9\n")]),
    (rules.SAFE_WITH_DEVIATIONS, [DEVIATES]), (rules.SAFE_WITH_DEVIATIONS, [DEVIATES, LATE]),
    (rules.SAFE_WITH_DEVIATIONS, [DEVIATES, FREE_CLEAN, SAFE]),
    *((rules.SAFE_WITH_DEVIATIONS, [refusal(f"{rule} routes[0]")]) for rule in ("C4", "C5", "C6", "C8")),
    *((rules.REFUSED, [refusal("C4 routes[0]", f"{rule} routes[0]")])
      for rule in ("C1", "C2", "C3", "C7", "R1", "N1", "F1")),
    (rules.REFUSED, [OTHER, FREE_CLEAN]), (rules.REFUSED, [OTHER, NO_HAZARD]),
    (rules.REFUSED, [refusal("C4 routes[0]", is_whole=False)]),
    (rules.REFUSED, [Answered("check", "strict", 5, "refused C4 routes[0]")]),
    (rules.REFUSED, [refusal("C4 routes[0]", command="verify")]),
    (rules.REFUSED, [refusal("N2 sections[0]", columns="free")]),
    (rules.REFUSED, [refusal("F1 document"), refusal("F1 document", command="verify")]),
    (rules.NOT_SHOWN, [FREE_CLEAN]), (rules.NOT_SHOWN, []), (rules.NOT_SHOWN, [LATE]),
    (rules.NOT_SHOWN, [FREE_CLEAN, NO_HAZARD]),
    (rules.NOT_SHOWN, [Answered("verify", "free", 4, "spent conflicts=100000\n")]),
    (rules.NOT_SHOWN, [Answered("verify", "free", 3, "breach steps=1 family=V7\nrun "
                                                     "1\nstart\nend\n")]),
    (rules.NOT_SHOWN, [Answered("verify", "free", 2, "not inductive steps=1\nrun "
                                                     "1\nstate\nend\n")]),
    (rules.NOT_SHOWN, [Answered("replay", "free", 0, "hazard two a\n", run=FROM_STATE)]),
    (rules.NOT_SHOWN, [Answered("replay", "free", 0, "hazard two a\n")]),
    (rules.NOT_SHOWN, [Answered("replay", "free", 6, "hazard two a\n", run=RUN)]),
    (rules.NOT_SHOWN, [Answered("check", "strict", None, "clean\n")]),
    (rules.NOT_SHOWN, [Answered("check", "strict", 0, "clean\n", is_whole=False)]),
    (rules.NOT_SHOWN, [Answered("check", "strict", 9, "clean\n")]),
    (rules.NOT_SHOWN, [Answered("check", "strict", 0, "clean")]),
    (rules.NOT_SHOWN, [Answered("verify", "strict", 1, "safe k=1\n")]),
    (rules.NOT_SHOWN, [Answered("verify", "strict", 0, "safe k=17\n")]),
    (rules.NOT_SHOWN, [refusal("C4 routes[0]", status=10)]),
    (rules.NOT_SHOWN, [refusal("C4 routes[0]", status=None)]),
]


def check_words(_, __):
    """Each table row has its word, and its rank among the rows."""
    for word, answers in ROWS:
        found = verdict(answers, True).word
        if found != word:
            yield f"{answers} is {found}, and was to be {word}"


def check_order(_, __):
    """The verdict does not depend on the order of the answers."""
    for word, answers in ROWS:
        if verdict(answers[::-1], True).word != word:
            yield f"{answers[::-1]} is not {word}"


def check_tones(_, __):
    """Only the proved program's answer is good. The line says if nothing is proved."""
    for word, answers in ROWS:
        proved, unproved = (verdict(answers, is_proved) for is_proved in (True, False))
        tone = {rules.HAZARD_FOUND: "bad", rules.SAFE: "good", rules.SAFE_WITH_DEVIATIONS: "good"}
        if proved.tone != tone.get(word, "warn") or unproved.tone == "good":
            yield f"{answers}: {proved.tone}, and unproved {unproved.tone}"
        if "othing is proved by this" in proved.line or "othing is proved by this" not in unproved.line:
            yield f"{proved.line} / {unproved.line}"
        if not proved.line.startswith(f"{word}. "):
            yield f"{proved.line} does not begin with {word}"


def check_without_the_clause(_, __):
    """Without the clause on deviations a deviating table is refused, or safe by verify."""
    kept = rules.DEVIATIONS_ARE_PROVED
    rules.DEVIATIONS_ARE_PROVED = False
    try:
        for word, answers in ((rules.REFUSED, [DEVIATES]), (rules.SAFE, [DEVIATES, SAFE])):
            if verdict(answers, True).word != word:
                yield f"{answers} is not {word}"
    finally:
        rules.DEVIATIONS_ARE_PROVED = kept


def check_ranking(_, __):
    """A hazard ranks first, and missing proof before safety. Each word has a rank and a tone."""
    ranks = [rules.RANKING.index(word) for word in (rules.HAZARD_FOUND, rules.NOT_SHOWN, rules.SAFE)]
    if ranks != sorted(ranks) or ranks[0] != 0:
        yield f"the order is {rules.RANKING}"
    if {word for word, _ in ROWS} != set(rules.RANKING) or set(rules.TONES) != set(rules.RANKING):
        yield "the words of the ranking, of the tones and of the rows are not the same"


PureTests = test_case("PureTests", [check_words, check_order, check_tones, check_without_the_clause,
                                    check_ranking], Test)


def asked(program, name, command, columns):
    """Returns the program's answer about an example."""
    with tempfile.TemporaryDirectory(prefix="irv-test-") as directory:
        words = ["--cert", str(Path(directory, "cert"))] if command == "verify" else []
        done = subprocess.run([program, command, "--columns", columns, *words], check=False,
                              input=(TOP / "examples" / name).read_bytes(), capture_output=True)
    return Answered(command, columns, done.returncode, done.stdout.decode())


class ExampleTests(ProgramTest):
    """Tests with the program's answers."""

    def test_examples(self):
        """Each example has its word. A clean table with free columns is never safe."""
        expected = [("platforms-wrong-position.json", "check", "free", rules.NOT_SHOWN),
                    ("platforms-wrong-position.json", "check", "strict", rules.REFUSED),
                    ("station.json", "check", "strict", rules.SAFE),
                    ("station.json", "check", "free", rules.NOT_SHOWN),
                    ("two-sections.json", "check", "strict", rules.REFUSED),
                    ("line-with-boards.json", "verify", "free", rules.SAFE)]
        self.see(f"{name}, {command}, {columns}: "
                 f"{found.line}" for name, command, columns, word in expected
                 for found in [verdict([asked(self.program, name, command, columns)], True)]
                 if found.word != word)


class ProvedProgramTests(Test):
    """Tests of whether a program is proved."""

    def test_note(self):
        """A program is proved only if a note beside it names its bytes."""
        with tempfile.TemporaryDirectory(prefix="irv-test-") as directory:
            program = Path(directory, "irv")
            self.assertFalse(is_proved(program))
            program.write_bytes(b"bytes")
            self.assertFalse(is_proved(program))
            note = Path(directory, "irv.built")
            total = hashlib.sha256(b"bytes").hexdigest()
            note.write_text(f"sources 1\nprogram {total}\ntoolchain rt\n", encoding="utf-8")
            self.assertTrue(is_proved(program))
            program.write_bytes(b"bytes!")
            self.assertFalse(is_proved(program))
