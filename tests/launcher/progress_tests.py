"""Tests of a proof's progress: the number of proved crates and the estimated remaining time."""

import re
import subprocess

from irvtools.launcher import progress

from tests.launcher.call_tests import left_on_screen, on_a_terminal
from tests.launcher.repository_copy import call, copy_tests


def prints_each_crate(top):
    """Without a terminal as standard error a build prints a line per crate, the program last."""
    printed = call(top, "--build")[1].decode().splitlines()
    lines = [re.fullmatch(r"irv: (\w+): (\d) of 5 crates proved in \d+ \w+(, about \d+ \w+ more)?",
                          line) for line in printed[1:]]
    if len(lines) != 5 or None in lines:
        return False
    return ([line[2] for line in lines] == list("12345") and lines[0][1] == "low"
            and lines[4][1] == "irv" and [bool(line[3]) for line in lines] == [True] * 4 + [False])


def renews_a_line(top):
    """On a terminal one line is renewed, and removed at the end."""
    (top / "slow").write_text("")
    shown, status = on_a_terminal(top, script="tools/prove_program.py")
    counts = re.findall(r"\r\x1b\[Kirv: (\d) of 5 crates proved in", shown)
    return (status == 0 and counts == sorted(counts) and {*"12345"} <= {*counts}
            and left_on_screen(shown) == [""])


class Clock:
    """A clock that changes only when it is set."""

    def __init__(self):
        self.now = 1000.0

    def __call__(self):
        return self.now


def estimates(top):
    """The remaining time is the longest chain or, if longer, the shared seconds, at the finished
    proofs' pace."""
    clock = Clock()
    seconds = {"low": 100.0, "left": 40.0, "right": 300.0, "top": 60.0}
    crates = {"low": set(), "left": {"low"}, "right": {"low"}, "top": {"low", "left", "right"}}
    two = progress.Progress(crates, 2, seconds, clock)
    one = progress.Progress(crates, 1, seconds, clock)
    # the chain low, right, top; and the sum of all
    first = two.remaining(), one.remaining()
    two.begin("low")
    clock.now += 50
    # half of it is done on time
    second = two.remaining()
    clock.now += 150
    took = two.end("low")
    # 100 listed seconds took 200; a tenth of 460 is assumed to take the listed time
    third = two.remaining(), two.sentence()
    slow = 360 * (200 + 46) / (100 + 46)
    return (first == (460.0, 500.0) and second == 410.0 and took == 200
            and abs(third[0] - slow) < 1e-9
            and third[1] == "1 of 4 crates proved in 3 minutes, about 10 minutes more")


def counts_no_pace_of_cached_proofs(_):
    """A crate that an earlier run proved is finished. The others take as long as before."""
    clock = Clock()
    crates = {"low": set(), "left": {"low"}, "right": {"low"}}
    kept = progress.Progress(crates, 1, {"low": 100.0, "left": 40.0, "right": 60.0}, clock)
    clock.now += 1
    kept.keep("low")
    return (abs(kept.remaining() - 100 * (1 + 10) / 10) < 1e-9
            and kept.sentence().startswith("1 of 3 crates proved in 1 second, about "))


def sees_running_proofs(top):
    """Running proofs are detected by the prover's processes, but not by other processes, its tests,
    or proofs in another directory."""
    here = (top / "crates").resolve()
    shown = {"1": ("rattle", here / "low", b"rattle\0build\0--lib"),
             "2": ("rattle", here / "middle", b"rattle\0build\0--test\0--lib"),
             "3": ("bash", here / "high", b"bash\0--lib"),
             "4": ("rattle", top / "bin", b"rattle\0check"),
             "5": ("rattle", here / "irv", b"rattle\0check\0src/main.rt")}
    for number, (name, place, words) in shown.items():
        process = top / "proc" / number
        process.mkdir(parents=True)
        (process / "comm").write_text(f"{name}\n")
        (process / "cmdline").write_bytes(words)
        (process / "cwd").symlink_to(place)
    (top / "proc/6").mkdir()
    (top / "proc/self").mkdir()
    return sorted(progress.running(here, top / "proc")) == ["irv", "low"]


def passes_ci_on(top):
    """CI's output is passed on unchanged, with the progress after each proved crate."""
    given = (b"== low\nrt: low proved\nrt: low: its tests are proved\nrt: nothing proved\n"
             b"rt: middle is kept: an earlier run on this machine proved the same files\nrt: ok\n")
    done = subprocess.run([top / "tools/progress.py"], cwd=top, input=given, stdout=subprocess.PIPE,
                          stderr=subprocess.PIPE)
    printed = done.stderr.decode().splitlines()
    wanted = ("irv: low: 1 of 6", "irv: middle was proved before: 2 of 6")
    return (done.returncode, done.stdout) == (0, given) and len(printed) == 2 \
        and all(re.match(rf"{begin} crates proved in \d+ \w+, about \d+ \w+ more", line)
                for begin, line in zip(wanted, printed))


def renews_the_list(top):
    """The list is written from the recorded proofs. A crate without a record keeps its seconds."""
    (top / "tools/crate_seconds.txt").write_text("# old\nlow 7\naside 9\n")
    (top / "out").mkdir()
    (top / "out/seconds").write_text("low 31.4\nirv 12.6\n")
    call(top, "--build")
    kept = (top / "out/seconds").read_text()
    subprocess.run([top / "tools/progress.py", "--renew"], check=True)
    lines = (top / "tools/crate_seconds.txt").read_text().splitlines()
    return (kept == "low 31.4\nirv 12.6\n"
            and [line for line in lines if line[0] != "#"] == ["aside 9", "irv 13", "low 31"])


def shows_how_it_is_called(top):
    """`--help` prints each option. A wrong argument is refused, and nothing is read."""
    answers = [subprocess.run([top / "tools/progress.py", word], stdin=subprocess.DEVNULL,
                              stdout=subprocess.PIPE, stderr=subprocess.PIPE, check=False)
               for word in ("--help", "--anew")]
    return ([done.returncode for done in answers] == [0, 2] and b"--renew" in answers[0].stdout
            and answers[1].stderr.startswith(b"usage: progress "))


ProgressTests = copy_tests("ProgressTests", (
    prints_each_crate, renews_a_line, estimates, counts_no_pace_of_cached_proofs,
    sees_running_proofs, passes_ci_on, renews_the_list, shows_how_it_is_called))
