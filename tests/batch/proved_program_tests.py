"""Tests of a batch with a proved program, which has a note of its build beside it."""

import hashlib
import shutil

from irvtools.calls.verdict import UNPROVED
from tests.batch.workspace import TOOL, batch_case, differs, plain, run

QUESTIONS = ("--ask", "check", "--ask", "html --verify-seconds 0 --search-seconds 0")


def proved(room):
    """Replaces the program by a copy noted as proved."""
    program = room.room / "irv"
    shutil.copy(room.true_program, program)
    total = hashlib.sha256(program.read_bytes()).hexdigest()
    program.with_name("irv.built").write_text(f"sources s\nprogram {total}\ntoolchain t\n",
                                              encoding="ascii")
    return program


def said(room):
    """Returns whether index and HTML reports say that nothing is proved, and the CSV's entry about
    the program."""
    pages = [room.out / "index.html", *(
        room.out / "results/html" / each["job"] / file["name"]
        for each in room.report()["configurations"][0]["questions"][1:]
        for file in room.report()["jobs"][each["job"]]["answer"]["files"].values())]
    shown = [UNPROVED in plain(page.read_text(encoding="utf-8")) for page in pages]
    return shown, {line["program is proved"] for line in room.table()}


def check_note(room):
    """With the proved program neither the index nor a report says that nothing is proved. Without
    the note both do, even if an earlier call knew the bytes as proved. A machine without the note
    finds a claim of proof."""
    room.add("platforms.json")
    room.program = proved(room)
    yield from differs("status", room.call(*QUESTIONS).returncode, 0)
    yield from differs("with the note", said(room), ([False, False], {"yes"}))
    words = [str(TOOL), "--verify-report", str(room.out), "--program"]
    yield from differs("verified", run([*words, str(room.program)]).returncode, 0)
    lines = room.verify()[1]
    if not lines[0].startswith("the program: the report says that it is proved"):
        yield f"a machine without the note: {lines}"
    room.program.with_name("irv.built").unlink()
    done = room.call(*QUESTIONS)
    yield from differs("without the note", said(room), ([True, True], {"no"}))
    yield from differs("jobs", done.stdout.split("; ")[1], "1 jobs were done, 1 were known")
    yield from differs("verified without", room.verify()[0], 0)


ProvedProgramTests = batch_case("ProvedProgramTests", (check_note,))
