"""Tests of `--unproved`: answers by an unproved build."""

from concurrent.futures import ThreadPoolExecutor

from tests.launcher.build_tests import has_built
from tests.launcher.repository_copy import UNCHECKED, call, comes_to_be, copy_tests, give_kit

NOTICE = "irv: this answer is by an unproved build"
BEHIND = "irv: a faster unproved build is made in the background, and cached for --unproved"


def answers_without_proof(top):
    """`--unproved` proves nothing. It passes on arguments, input, output and status, and uses files
    of the caller's directory."""
    output, errors, status, calls = call(top, "--unproved", "replay", "--run", "a.run", data=b"in")
    here = top.resolve()
    named = [call(top, "--unproved", *words)[0].decode() for words in
             (("--cert=c", "verify"), ("--cert", "-", "verify"), ("verify", "--cert=--cert"),
              ("verify", "--cert", "/tmp/c"), ("verify", "--cert="),
              ("verify", "--cert", "c d", "--depth", "4"))]
    return ((output.decode(), status) == (f"--steps 1 -- replay --run {here}/a.run\nin", 8)
            and len(calls) == 1
            and named == [f"--steps 1 -- {words}\n" for words in
                          (f"--cert={here}/c verify", f"--cert {here}/- verify",
                           f"verify --cert={here}/--cert", "verify --cert /tmp/c", "verify --cert=",
                           f"verify --cert {here}/c d --depth 4")]
            and errors.decode().splitlines() == [NOTICE, "irv: read fault",
                                                 "irv: cannot read a.run: no such file"]
            and not (top / "out/unproved").exists())


def fails_if_the_build_fails(top):
    """If the unproved build fails too, the status is 125, and the toolchain's output is printed."""
    (top / "broken").write_text("")
    output, errors, status, _ = call(top, "--unproved", "check")
    return (output, status) == (b"", 125) and b"no such word" in errors


def is_cached(top):
    """Waits for the faster build. Returns whether it is there."""
    return comes_to_be(lambda: (top / "out/unproved/irv-unproved.built").exists()
                       and not list(top.glob("irv-making.*")))


def builds_of(calls):
    """Returns the toolchain calls that build."""
    return [line for line in calls if not line.endswith((": version", ": doc"))]


def caches_the_faster_build(top):
    """The quick build answers the first `--unproved`, while the faster one is built. The next call
    uses that, in the caller's directory, without a build."""
    give_kit(top)
    first = call(top, "--unproved", "check", data=b"in")
    made = is_cached(top)
    again = call(top, "--unproved", "replay", "--run", "a", data=b"in")
    return (first[0].decode() == "--steps 1 -- check\nin" and builds_of(first[3]) == ["irv: try"]
            and first[1].decode().splitlines() == [NOTICE, "irv: read fault",
                                                   "irv: cannot read standard input", BEHIND]
            and made and again == (b"unproved replay --run a\nin", f"{NOTICE}\n".encode(), 6, []))


def removes_the_checks(top):
    """The faster build has neither the sanitizer nor checks."""
    give_kit(top)
    call(top, "--unproved", "check")
    return is_cached(top) and (top / "linked").read_text() == UNCHECKED


def builds_anew_after_a_change(top):
    """The cached build is not called after a source changed, or if it is another program."""
    give_kit(top)
    call(top, "--unproved", "check")
    first, program = is_cached(top), top / "out/unproved/irv-unproved"
    program.write_text(program.read_text() + "#")
    other = call(top, "--unproved", "check")
    again = is_cached(top)
    (top / "crates/low/src/main.rt").write_text("// other")
    changed = call(top, "--unproved", "check")
    return (first and again
            and [builds_of(it[3]) for it in (other, changed)] == [["irv: try"]] * 2)


def is_never_the_proved_one(top):
    """Only `--unproved` and `--test` call the unproved build. A command, `--build`, `--install` and
    `--html` prove first, and `--version` prints both."""
    give_kit(top)
    call(top, "--unproved", "check")
    made = is_cached(top)
    printed = call(top, "--version")[0].decode().splitlines()
    refused = []
    (top / "unproved").write_text("low")
    for words in (["check"], ["--build"], ["--install", "there"], ["--html", "p.html"]):
        output, _, status, calls = call(top, *words)
        refused.append((output, status, has_built(calls)))
    (top / "unproved").unlink()
    call(top, "--build")
    proved = call(top, "check")
    return (made and "program not built" in printed and printed[-1].startswith("unproved sha256 ")
            and refused == [(b"", 125, True)] * 4 and not (top / "there").exists()
            and proved == (b"check\n", b"", 6, []))


def builds_one_at_a_time(top):
    """If several calls come at once, one builds. The others wait and use what it cached."""
    give_kit(top)
    with ThreadPoolExecutor(3) as pool:
        answers = list(pool.map(lambda _: call(top, "--unproved", "check"), range(3)))
    outputs = sorted(answer[0].decode() for answer in answers)
    return is_cached(top) and outputs == ["--steps 1 -- check\n", "unproved check\n",
                                          "unproved check\n"]


def caches_nothing_edited(top):
    """If a source is edited during the build, nothing is cached."""
    give_kit(top)
    (top / "edit").write_text("")
    errors = call(top, "--unproved", "check")[1].decode()
    return (BEHIND not in errors and not (top / "out/unproved").exists()
            and not list(top.glob("irv-making.*")))


def works_without_the_faster_build(top):
    """If the faster build fails, the quick one answers each `--unproved`. Only a log with the cause
    remains."""
    give_kit(top)
    (top / "unmade").write_text("")
    outputs, log = [], top / "out/making.log"
    for _ in range(2):
        log.unlink(missing_ok=True)
        outputs.append(call(top, "--unproved", "check")[0].decode())
        if not comes_to_be(lambda: log.exists() and "returned non-zero" in log.read_text()):
            return False
    return (outputs == ["--steps 1 -- check\n"] * 2 and not (top / "out/unproved").exists()
            and comes_to_be(lambda: not list(top.glob("irv-making.*"))))


def leaves_no_link(top):
    """The faster build never leaves a link in the repository: CI refuses links."""
    give_kit(top)
    (top / "unmade").write_text("")
    call(top, "--unproved", "check")
    return not [path for path in (top / "out", top / "crates", top / "tools")
                for it in path.rglob("*") if it.is_symlink()]


UnprovedTests = copy_tests("UnprovedTests", (
    answers_without_proof, fails_if_the_build_fails, caches_the_faster_build,
    removes_the_checks, builds_anew_after_a_change, is_never_the_proved_one,
    builds_one_at_a_time, caches_nothing_edited, works_without_the_faster_build, leaves_no_link))
