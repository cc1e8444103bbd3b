"""Tests of the launcher's line after refused arguments, a fault or a rejection."""

import os
import subprocess

from tests.launcher.build_tests import has_built
from tests.launcher.repository_copy import call, copy_tests, environment

OWN = "irv: its own line"


def printed(top, status, words, before="", **streams):
    """Calls the launcher with a program that ends with `status`. Returns the status and the lines
    of standard error. `before` changes the streams in a shell."""
    (top / "ends").write_text(f"{status}\n")
    command = ["bash", "-c", f'exec "$0" "$@" {before}', top / "irv", *words]
    done = subprocess.run(command, cwd=top, env=environment(top), stderr=subprocess.PIPE,
                          **{"stdin": subprocess.DEVNULL, "stdout": subprocess.DEVNULL, **streams})
    return done.returncode, done.stderr.decode().splitlines()


def all_print(top, status, cases):
    """Returns whether each case of arguments and stream changes has its line after the program's."""
    call(top, "--build")
    (top / "directory").mkdir()
    (top / "file").write_text("")
    seen = [printed(top, status, words, before) for words, before, _ in cases]
    return seen == [(status, [OWN, f"irv: {line}"]) for _, _, line in cases]


# wrong arguments and their line
WRONG = (
    (["chekc"], "'chekc' is not a command: ./irv --help lists the commands"),
    ([""], "'' is not a command: ./irv --help lists the commands"),
    (["--", "--cert"], "'--cert' is not a command: ./irv --help lists the commands"),
    (["--columns", "free"], "no command is given: ./irv --help lists the commands"),
    (["--adopt", "0"], "'--adopt' is not an option: ./irv --help lists the options"),
    (["check", "--sources"],
     "'--sources' is not an option of check: ./irv check --help lists its options"),
    (["check", "-q"], "'-q' is not an option of check: ./irv check --help lists its options"),
    (["check", "--html", "x"], "--html has to be the first argument"),
    (["check", "--depth", "4"],
     "check does not take --depth: ./irv check --help lists its options"),
    (["check", "plant.json"],
     "check reads its configuration from standard input: add < before 'plant.json'"),
    (["make", "--stations", "2", "3"], "make takes options only, not '3'"),
    (["check", "--columns"], "--columns needs strict or free"),
    (["verify", "--cert", "--depth", "4"], "--cert needs FILE"),
    (["check", "--columns=loose"], "--columns takes strict or free, not 'loose'"),
    (["check", "--columns", "strict|free"], "--columns takes strict or free, not 'strict|free'"),
    (["check", "--columns", "free", "--columns=free"], "--columns is given twice"),
    (["verify"], "verify needs --cert FILE"),
    (["replay", "--columns", "free"], "replay needs --run FILE"),
    (["rup", "--cert", "c", "--number", "1"], "rup needs --query hazard|breach|step"),
    (["verify", "--cert", "c", "--depth", "17"],
     "--depth takes a whole number from 1 to 16, not '17'"),
    (["verify", "--cert", "c", "--depth", "4 "],
     "--depth takes a whole number from 1 to 16, not '4 '"),
    (["verify", "--cert", "c", "--conflicts=99999999999999999999"],
     "--conflicts takes a whole number from 0 to 200000, not '99999999999999999999'"),
    (["export", "--query", "step", "--number", "0"],
     "--number takes a whole number from 1 to 16, not '0'"),
)


def names_what_is_wrong(top):
    """After `irv: usage` a line names the wrong or missing argument."""
    return all_print(top, 7, [(words, "", line) for words, line in WRONG])


def refuses_without_a_build(top):
    """Without a build the launcher refuses wrong arguments as the program does, with status 7, and
    builds nothing. The same holds with `--unproved`."""
    for words, line in WRONG:
        for first in ([], ["--unproved"]):
            answer = call(top, *first, *words)
            if answer != (b"", f"irv: usage\nirv: {line}\n".encode(), 7, []):
                return False
    return True


def accepts_what_is_right(top):
    """Arguments that the program accepts are not refused, but start a build."""
    right = (["verify", "--cert="], ["--depth=007", "verify", "--cert", "-", "--conflicts", "+7"],
             ["verify", "--cert=--cert", "--columns=free"], ["--run=--help", "replay"],
             ["export", "--query", "step", "--number=16"],
             ["export", "--query=hazard", "--number", "0"], ["check", "--"],
             ["--columns", "free", "--", "table"])
    (top / "unproved").write_text("low")
    for words in right:
        output, _, status, calls = call(top, *words)
        if (output, status) != (b"", 125) or not has_built(calls):
            return False
    return True


def names_bytes_that_are_not_text(top):
    """An argument that is not UTF-8 is named, if nothing else is wrong."""
    call(top, "--build")
    status, lines = printed(top, 7, ["replay", "--run", b"\xff.run"])
    return status == 7 and lines == [OWN, "irv: an argument is not UTF-8: $'\\377.run'"]


def names_what_is_read(top):
    """After a read fault a line names the unreadable file and, if known, the cause."""
    read = "cannot read standard input"
    cases = [
        (["replay", "--run", "none"], "", "cannot read none: no such file"),
        (["drive", "--run=directory"], "", "cannot read directory: it is a directory"),
        (["audit", "--cert", "directory"], "", "cannot read directory: it is a directory"),
        (["--cert", "no/such", "rup"], "", "cannot read no/such: no such file"),
        (["check"], "<directory", f"{read}: it is a directory"),
        (["replay", "--run", "none"], "<directory", f"{read}: it is a directory"),
        (["check"], "<&-", f"{read}: it is closed"),
        (["check"], "", read),
        (["verify", "--cert", "none"], "", read),
        (["replay", "--run", "file"], "", f"{read} or file"),
    ]
    if os.geteuid() != 0:
        (top / "barred").write_text("")
        (top / "barred").chmod(0)
        cases.append((["replay", "--run", "barred"], "", "cannot read barred: permission denied"))
    return all_print(top, 8, cases)


def names_what_is_written(top):
    """After a write fault a line names the unwritable file and, if known, the cause."""
    output, cert = "cannot write standard output", "cannot write the certificate to"
    cases = [
        (["verify", "--cert", "directory"], "", f"{cert} 'directory': it is a directory"),
        (["demo", "--cert=no/such"], "", f"{cert} 'no/such': the directory no does not exist"),
        (["verify", "--cert", "file/such"], "", f"{cert} 'file/such': file is not a directory"),
        (["verify", "--cert="], "", f"{cert} '': the name is empty"),
        (["verify", "--cert", "/dev/full"], "", f"{cert} '/dev/full': the disk is full"),
        (["check"], ">/dev/full", f"{output}: the disk is full"),
        (["check"], ">&-", f"{output}: it is closed"),
        (["verify", "--cert", "file"], ">&-", f"{output}: it is closed"),
        (["audit", "--cert", "directory"], "", output),
        (["verify", "--cert", "file"], "", f"{cert} 'file', or standard output"),
    ]
    return all_print(top, 9, cases)


def names_the_other_command(top):
    """If replay rejects a scenario, a line names drive, and vice versa. A file of the right kind,
    or another file, gets no line."""
    for name, text in (("s.scene", "drive 1\nend\n"), ("r.run", "run 1\nstart\n"), ("x", "driver")):
        (top / name).write_text(text)
    scene = "irv: s.scene: this is a scenario: use drive"
    run = "irv: r.run: this is a run: use replay"
    cases = [(["replay", "--run", "s.scene"], [OWN, scene]), (["drive", "--run=r.run"], [OWN, run]),
             (["replay", "--run", "r.run"], [OWN]), (["drive", "--run", "s.scene"], [OWN]),
             (["replay", "--run", "x"], [OWN]), (["audit", "--cert", "s.scene"], [OWN])]
    call(top, "--build")
    return [printed(top, 6, words) for words, _ in cases] == [(6, lines) for _, lines in cases]


def adds_nothing_else(top):
    """After every other status there is only the program's own line."""
    call(top, "--build")
    others = [printed(top, status, ["check"]) for status in (0, 1, 2, 3, 4, 5, 6, 10)]
    return others == [(status, [OWN]) for status in (0, 1, 2, 3, 4, 5, 6, 10)]


ExplanationTests = copy_tests("ExplanationTests", (
    names_what_is_wrong, refuses_without_a_build, accepts_what_is_right,
    names_bytes_that_are_not_text, names_what_is_read, names_what_is_written,
    names_the_other_command, adds_nothing_else))
