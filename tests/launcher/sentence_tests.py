"""Tests of `--explain` and `--advise` among the arguments of a command."""

from tests.launcher.repository_copy import call, copy_tests

ASKED = (["check", "--explain"], ["verify", "--cert=c", "--advise"],
         ["check", "--in", "d", "--explain"], ["replay", "--run", "r", "--explain"])
NOT_ASKED = (["check", "--", "--explain"], ["check"])


def hands_on_what_asks(top):
    """The tool answers a command with `--explain` or `--advise`, given the program and all
    arguments. The program answers one without them, or after `--`."""
    call(top, "--build")
    program = (top / "crates/irv/out/irv").resolve()
    for words in ASKED:
        calls = call(top, *words)[3]
        assert calls[-1] == f"explain: --program {program} {' '.join(words)}", (words, calls)
    for words in NOT_ASKED:
        output, _, status, calls = call(top, *words)
        assert (output, status) == (f"{' '.join(words)}\n".encode(), 6), (words, output)
        assert not [line for line in calls if line.startswith("explain")], calls
    return True


def takes_no_other_program(top):
    """A command that explains takes no other program."""
    call(top, "--build")
    output, errors, status, calls = call(top, "check", "--explain", "--program", "x")
    return (output, status) == (b"", 125) and b"takes no --program" in errors \
        and not [line for line in calls if line.startswith("explain")]


def builds_first(top):
    """Without a program the build comes first."""
    calls = call(top, "check", "--explain")[3]
    return any(line.endswith(": ci") for line in calls) and calls[-1].startswith("explain: ")


SentenceTests = copy_tests("SentenceTests", (
    hands_on_what_asks, takes_no_other_program, builds_first))
