"""Tests of building: its triggers, its proofs and its output."""

import hashlib
import os
import re
import shutil
import subprocess
import time
from concurrent.futures import ThreadPoolExecutor

from tests.launcher.repository_copy import CRATES, call, copy_tests, environment

# the call that proves the program and its dependencies, lowest first
PROVING = "low beside middle high irv : ci"


def has_built(calls):
    """Returns whether these toolchain calls built the program."""
    return any(line.endswith(": ci") for line in calls)


def builds_once(top):
    """The first call proves only the program and its dependencies. The next only runs."""
    first = call(top, "check", data=b"in")
    again = call(top, "check", data=b"in")
    return ((first[0], first[2], first[3]) == (b"check\nin", 6, [PROVING])
            and again == (b"check\nin", b"", 6, []))


def builds_in_a_directory_of_its_own(top):
    """The proof runs over a temporary copy without mutants and build products, and removes it."""
    (top / "look").write_text("")
    for name in ("specs/Lib.antt", "must-fail/a.edit", "mutants/b.edit", "out/rlib/low.rlib"):
        (top / "crates/low" / name).parent.mkdir(parents=True, exist_ok=True)
        (top / "crates/low" / name).write_text("")
    status = call(top, "--build")[2]
    names = ("beside", "high", "irv", "low", "middle")
    sources = [f"./crates/{name}/src/main.rt" for name in names]
    seen = (top / "seen").read_text().split()
    wanted = ["./HANDLES", "./crates.txt", "./crates/low/specs/Lib.antt", *sources]
    return (status == 0 and seen == sorted(wanted)
            and not list(top.glob("irv-proving-*"))
            and (top / "crates/low/out/rlib/low.rlib").exists())


def builds_twice_at_once(top):
    """Two builds at the same time both succeed."""
    (top / "slow").write_text("")
    with ThreadPoolExecutor(2) as pool:
        ended = list(pool.map(lambda _: call(top, "--build")[2], range(2)))
    return ended == [0, 0]


def builds_alone(top):
    """`--build` builds without standard output. If the program is built, it does nothing."""
    output, _, status, calls = call(top, "--build")
    again = call(top, "--build")
    return (output, status, calls) == (b"", 0, [PROVING]) and again == (b"", b"", 0, [])


def builds_what_changed(top):
    """The program is built again if a source is changed, renamed or removed, if crates.txt changes
    a crate's dependencies, or if it is another program."""
    call(top, "--build")
    low, irv = top / "crates/low/specs", top / "crates/irv/out/irv"
    low.mkdir()
    changes = [lambda: (top / "crates/low/src/main.rt").write_text("// other"),
               lambda: (low / "Lib.antt").write_text(""),
               lambda: (low / "Lib.antt").rename(low / "Lab.antt"),
               lambda: (low / "Lab.antt").unlink(),
               lambda: (top / "crates.txt").write_text(CRATES.replace("beside: low", "beside:")),
               lambda: irv.write_text("other"),
               irv.unlink]
    for change in changes:
        change()
        _, _, status, calls = call(top, "--build")
        if status != 0 or not has_built(calls) or call(top, "--build")[3]:
            return False
    return True


def builds_nothing_for_the_rest(top):
    """No build starts for a source that is only newer, a mutant, a test crate, or a file in out/."""
    call(top, "--build")
    later = time.time() + 1000
    for path in (top / "crates").rglob("*.rt"):
        path.write_text(path.read_text())
        os.utime(path, (later, later))
    (top / "crates/low/must-fail").mkdir()
    (top / "crates/low/must-fail/wrong.edit").write_text("file: src/main.rt")
    (top / "crates/aside/src/main.rt").write_text("// other")
    (top / "crates/low/out").mkdir()
    (top / "crates/low/out/more").write_text("")
    (top / "crates.txt").write_text(CRATES.replace("aside: low", "# again\naside: low middle"))
    return call(top, "check") == (b"check\n", b"", 6, [])


def builds_again_after_an_edit(top):
    """If a source changes during a build, no program answers, and the next call builds again."""
    (top / "edit").write_text("")
    edited = call(top, "check")
    (top / "edit").unlink()
    again = call(top, "check")
    return ((edited[0], edited[2]) == (b"", 125)
            and edited[1].endswith(b"sources were edited during the build: call again to build the "
                                   b"new ones\n")
            and (again[0], again[2]) == (b"check\n", 6) and has_built(again[3]))


def notes_what_it_built(top):
    """The note has the checksums of sources and program, the toolchain and the date. `--version`
    prints them. Another date changes no checksum."""
    call(top, "--build")
    program = top / "crates/irv/out/irv"
    note = dict(line.split(" ", 1) for line in
                program.with_name("irv.built").read_text().splitlines())
    total = hashlib.sha256(program.read_bytes()).hexdigest()
    printed = call(top, "--version")[0].decode().splitlines()
    return (list(note) == ["sources", "program", "toolchain", "date"] and note["program"] == total
            and note["toolchain"] == "rattle-kit-pretended"
            and re.fullmatch(r"\d{4}-\d\d-\d\d \d\d:\d\d UTC", note["date"])
            and f"sources sha256 {note['sources']}" in printed
            and f"built and proved here on {note['date']}" in printed)


def builds_after_ci(top):
    """A program that only `rt ci` has built is not called: `--build` builds and writes the note."""
    subprocess.run([top / "bin/rt", "ci"], cwd=top, stdout=subprocess.DEVNULL, check=True)
    program = top / "crates/irv/out/irv"
    made = program.read_bytes()
    built = call(top, "--build")
    return (built[::2] == (b"", 0) and has_built(built[3]) and program.read_bytes() == made
            and call(top, "check") == (b"check\n", b"", 6, []))


def fails_without_proof(top):
    """If a crate is not proved, the status is 125 and no program is made. Only that crate's output
    is printed."""
    (top / "unproved").write_text("middle")
    output, errors, status, calls = call(top, "check")
    return ((output, status, calls) == (b"", 125, [PROVING])
            and b"== middle\nits proof\nrt: middle NOT PROVED\n" in errors
            and b"== low" not in errors
            and errors.endswith(b"irv: the program is not built\n")
            and not (top / "crates/irv/out/irv").exists() and not list(top.glob("irv-proving-*")))


def prints_a_fault_at_once(top):
    """A failed proof is printed while others run."""
    for name, text in (("unproved", "middle"), ("patient", "")):
        (top / name).write_text(text)
    with subprocess.Popen([top / "tools/prove_program.py"], cwd=top, env=environment(top),
                          stdout=subprocess.PIPE, stderr=subprocess.DEVNULL) as builder:
        printed = [builder.stdout.readline() for _ in range(3)]
        (top / "shown").write_text("")
        rest = builder.stdout.read()
    return ((printed, rest, builder.returncode)
            == ([b"== middle\n", b"its proof\n", b"rt: middle NOT PROVED\n"], b"", 1))


def puts_nothing_that_is_refused(top):
    """A program that `rt ci` refuses is not installed, and the last output is printed."""
    (top / "otherwise").write_text("")
    status, printed, _ = proving(top)
    return ((status, printed.splitlines()[-1]) == (1, b"rt: irv wrote something else")
            and not (top / "crates/irv/out").exists())


def proving(top, *words):
    """Calls the builder in the copy. Returns its status, standard output and standard error."""
    done = subprocess.run([top / "tools/prove_program.py", *words], cwd=top, env=environment(top),
                          stdin=subprocess.DEVNULL, stdout=subprocess.PIPE, stderr=subprocess.PIPE)
    return done.returncode, done.stdout, done.stderr


def refuses_other_arguments(top):
    """With wrong arguments the builder prints its usage and proves nothing."""
    status, output, errors = proving(top, "irv")
    return ((status, output) == (2, b"") and errors.startswith(b"usage: prove_program ")
            and not (top / "calls").exists() and b"--anew" in proving(top, "--help")[1])


def refuses_an_absent_crate(top):
    """A crate without directory is refused before any proof."""
    shutil.rmtree(top / "crates/middle")
    return proving(top) == (1, b"", b"prove_program: cannot read crates/middle, which crates.txt "
                                    b"names: no such directory\n")


BuildTests = copy_tests("BuildTests", (
    builds_once, builds_in_a_directory_of_its_own, builds_twice_at_once, builds_alone,
    builds_what_changed, builds_nothing_for_the_rest, builds_again_after_an_edit,
    notes_what_it_built, builds_after_ci, fails_without_proof, prints_a_fault_at_once,
    puts_nothing_that_is_refused, refuses_other_arguments, refuses_an_absent_crate))
