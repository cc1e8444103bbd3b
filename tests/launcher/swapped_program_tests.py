"""Tests of unproved programs at the program's place: none is called.

There are four programs: a script that prints `clean`, the unproved build, the proved program with a
changed byte, and a program of other sources. Each has the last build's note beside it.
"""

import shutil

from tests.launcher.build_tests import has_built
from tests.launcher.repository_copy import TOOLS, call, copy_tests, give_kit
from tests.launcher.unproved_tests import is_cached

SCRIPT = """#!/bin/sh
echo clean
"""
# an option's argument that makes it need the program, if not `--with-network`; the calls that need
# it
NEEDS_PROGRAM = {"--verify-package": "--with-program"}
NEED_PROGRAM = [["check"], ["verify", "--cert", "c"], ["--build"], ["--install", "there"],
                *([option, NEEDS_PROGRAM.get(option, "--with-network"), "x"] for option in TOOLS)]


def place(top):
    """Returns the program's place."""
    return top / "crates/irv/out/irv"


def put_script(top):
    """Puts a script that prints `clean`."""
    call(top, "--build")
    place(top).write_text(SCRIPT)


def put_unproved(top):
    """Puts the unproved build."""
    call(top, "--build")
    give_kit(top)
    call(top, "--unproved", "check")
    assert is_cached(top)
    shutil.copy(top / "out/unproved/irv-unproved", place(top))


def put_changed(top):
    """Puts the proved program with one byte changed."""
    call(top, "--build")
    content = place(top).read_bytes()
    place(top).write_bytes(content.replace(b"exit 6", b"exit 0", 1))
    assert len(place(top).read_bytes()) == len(content)


def put_other(top):
    """Puts a program of other sources, with its own build note."""
    (top / "crates/low/src/main.rt").write_text("// other")
    call(top, "--build")
    (top / "crates/low/src/main.rt").write_text("")


def is_refused(top, put):
    """Returns whether the program placed by `put` answers nothing. If the build fails, each call
    ends with status 125 and calls no tool. Otherwise the new build answers."""
    genuine = (top / "program").read_bytes()
    put(top)
    swapped = place(top).read_bytes()
    (top / "unproved").write_text("low")
    for words in NEED_PROGRAM:
        output, errors, status, calls = call(top, *words)
        if (output, status) != (b"", 125) \
                or not errors.endswith(b"irv: the program is not built\n") \
                or [line for line in calls if not line.endswith((": ci", ": version"))]:
            return False
    if (top / "there").exists() or not is_out_of_reach(top, swapped) or not is_not_told(top):
        return False
    (top / "unproved").unlink()
    output, _, status, calls = call(top, "check")
    return ((output, status) == (b"check\n", 6) and has_built(calls)
            and place(top).read_bytes() == genuine)


def is_out_of_reach(top, swapped):
    """Returns whether `--csv`, which needs no program here, and `--test` get another file."""
    give_kit(top)
    lines = [call(top, *words)[3][-1] for words in (["--csv", "--in", "d"], ["--test"])]
    handed = [line.split(" ")[2] for line in lines]
    return (handed[0] == f"{place(top).resolve()}.unbuilt" and handed[1].endswith("/irv-unproved")
            and place(top).read_bytes() == swapped)


def is_not_told(top):
    """Returns whether `--version` does not accept the program, `--help` prints help, and
    `--unproved` uses the unproved build."""
    version = call(top, "--version")[0].decode().splitlines()
    helped, answered = call(top, "--help"), call(top, "--unproved", "check")
    return ("program not built of these sources" in version
            and not [line for line in version if line.startswith("built ")]
            and helped[0].startswith(b"irv, a verifier") and helped[3] == []
            and answered[0] in (b"unproved check\n", b"--steps 1 -- check\n")
            and b"irv: this answer is by an unproved build\n" in answered[1])


def calls_no_script(top):
    """A script that prints `clean` is not called."""
    return is_refused(top, put_script)


def calls_no_unproved_build(top):
    """The unproved build at the program's place is not called."""
    return is_refused(top, put_unproved)


def calls_no_changed_program(top):
    """The proved program with one changed byte is not called."""
    return is_refused(top, put_changed)


def calls_no_other_program(top):
    """A program of other sources is not called."""
    return is_refused(top, put_other)


def calls_no_program_without_note(top):
    """Without a note, or with one in an unknown format, not even the right program is called."""
    call(top, "--build")
    note = place(top).with_name("irv.built")
    right = note.read_text()
    (top / "unproved").write_text("low")
    for text in (None, "", "sources x\n", right.replace("sources ", "source "), "\n" + right,
                 "\n".join(right.splitlines()[::-1])):
        note.unlink() if text is None else note.write_text(text)
        if call(top, "check")[::2] != (b"", 125):
            return False
    note.write_text(right)
    return call(top, "check")[::2] == (b"check\n", 6)


def adopts_nothing(top):
    """`--adopt` and `--sources` are refused as unknown arguments, with or without a built program."""
    for _ in range(2):
        for words in (["--adopt", "0" * 64], ["--sources"]):
            output, errors, status, calls = call(top, *words)
            line = f"irv: '{words[0]}' is not an option: ./irv --help lists the options"
            if (output, status, calls) != (b"", 7, []) or errors.decode().splitlines()[-1] != line:
                return False
        call(top, "--build")
        (top / "ends").write_text("7\n")
    return True


SwappedProgramTests = copy_tests("SwappedProgramTests", (
    calls_no_script, calls_no_unproved_build, calls_no_changed_program, calls_no_other_program,
    calls_no_program_without_note, adopts_nothing))
