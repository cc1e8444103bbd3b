"""Tests of refusals, and of a machine without Snakemake."""

import os
import sys

from tests.batch.workspace import EXAMPLES, batch_case, differs, run


def check_missing(room):
    """Without Snakemake a call says what to install, and makes nothing."""
    room.add("platforms.json")
    done = run([sys.executable, *room.words()], env={"PATH": str(room.directory)})
    yield from differs("status", done.returncode, 2)
    yield from differs(
        "said", done.stderr,
        "irv --batch: Snakemake is not installed, and runs the jobs; install it, for "
        "example by `apt-get install --no-install-recommends snakemake`\n")
    yield from differs("made", room.out.exists(), False)


def cases(room):
    """Returns each refusal's message, arguments, preparation and, if it is another one, OUT."""
    outside = room.room / "outside.json"
    outside.write_bytes(b"{}")
    link, listed = room.directory / "link.json", room.directory / "questions.csv"
    return [
        ("the results cannot be inside the directory of the configurations", ["--ask", "check"],
         None, room.directory / "out"),
        ("link.json: the link leads out of the directory", [], lambda: link.symlink_to(outside),
         None),
        ("link.json: links to directories are not followed", [], lambda: link.symlink_to(room.room),
         None),
        ("link.json: not a regular file", [], lambda: os.mkfifo(link), None),
        ("link.json: the link leads out of the directory", [], lambda: link.symlink_to("/dev/zero"),
         None),
        ("check: unrecognized arguments: --depth 4", ["--ask", "check --depth 4"], None, None),
        ("audit needs verify", ["--ask", "audit"], None, None),
        ("drive: ../a.scene leads out of the directory", ["--ask", "drive --run ../a.scene"],
         None, None),
        ("17 is not a whole number from 1 to 16", ["--ask", "verify --depth 17"], None, None),
        ("questions.csv, line 1: the first line must be configuration,ask,words", [],
         lambda: listed.write_text("a,b\n", encoding="ascii"), None),
        ("questions.csv, line 2: none.json is not a configuration of the directory", [],
         lambda: listed.write_text("configuration,ask,words\nnone.json,check,\n", encoding="ascii"),
         None),
        ("exists already, and is not a directory of results", [], None, EXAMPLES),
        ("the program cannot be read", ["--program", str(room.room / "none")], None, None),
    ]


def check_refusals(room):
    """Each refusal is reported, and nothing is made."""
    room.add("platforms.json")
    for why, words, before, out in cases(room):
        if before:
            before()
        line = room.words(*words)
        line[2] = str(out or room.out)
        done = run(line)
        if done.returncode != 2 or why not in done.stderr or "Traceback" in done.stderr:
            yield f"{why!r} is expected, and {done.returncode} {done.stderr!r} came"
        yield from differs(f"{why}: made", [room.out.exists(), (room.directory / "out").exists()],
                           [False, False])
        (room.directory / "link.json").unlink(missing_ok=True)
        (room.directory / "questions.csv").unlink(missing_ok=True)


RefusalTests = batch_case("RefusalTests", (check_missing, check_refusals))
