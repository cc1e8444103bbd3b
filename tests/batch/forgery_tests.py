"""Tests of forged answers: the report repeats them, and `--verify-report` finds them."""

import json

from tests.batch.workspace import batch_case, differs

SOLVER = "verify_with --solver 'sh -c \": >{proof}; exit 20\" {cnf}'"
QUESTIONS = ("--ask", "check", "--ask", "verify", "--ask", SOLVER,
             "--ask", "html --columns free --verify-seconds 5 --search-seconds 0")
SAFE_LINE = "SAFE. No run of any length ends in a hazard."
# by kind of question: the forged answer, and the fault that is found
FORGED = {
    "check": ({"line": "clean", "is_good": True,
               "status": 0}, "irv check says refused C3 routes[1], and the report "
              "says clean"),
    "verify": ({"line": "safe k=1", "is_good": True,
                "status": 0}, "the report says safe k=1 without a "
               "certificate"),
    "verify_with": ({"line": "safe k=1",
                     "is_good": True}, "safe k=1 does not follow from its queries"),
    "html": ({"line": SAFE_LINE,
              "is_good": True}, "the HTML report has another first line than its answer"),
}


def forge(room, kind, changes):
    """Forges an answer of a kind. Returns its file and the original."""
    file = next((room.out / "results" / kind).glob("*/answer.json"))
    before = file.read_bytes()
    file.write_text(json.dumps({**json.loads(before), **changes}), encoding="utf-8")
    return file, before


def check_forged(room):
    """The next report repeats each answer that is forged as safe, and verification finds it."""
    room.add("platforms-wrong-position.json")
    room.call(*QUESTIONS)
    yield from differs("before", room.verify()[0], 0)
    for kind, (changes, expected) in FORGED.items():
        file, before = forge(room, kind, changes)
        room.call(*QUESTIONS)
        yield from differs(f"{kind}: the report",
                           room.answers()[("platforms-wrong-position.json", kind)],
                           ("good", changes["line"]))
        status, lines = room.verify()
        if status != 1 or not any(expected in line for line in lines):
            yield f"{kind}: {status} {lines}"
        file.write_bytes(before)
    room.call(*QUESTIONS)
    yield from differs("afterwards", room.verify()[0], 0)


ForgeryTests = batch_case("ForgeryTests", (check_forged,))
