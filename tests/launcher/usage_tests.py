"""Tests that the launcher reads arguments as the program does.

The launcher names a wrong argument if and only if the program answers `irv: usage`. The arguments
are hand-written or random, without input.
"""

import random
import subprocess
import tempfile

from irvtools.launcher import command_table
from irvtools.paths import TOP
from tests.support.harness import ProgramTest

USAGE = 7
RANDOM_CASES = 1500
SEPARATOR = "\x1f"
# reads one case a line, and prints each fault's sentence or an empty line
READER = r"""
top=$1
no_answer() { echo "$1" >&2; exit 125; }
. "$top/tools/launcher/table.bash"
. "$top/tools/launcher/arguments.bash"
read_table
while IFS= read -r line; do
    words=()
    while [[ $line == *$'\x1f'* ]]; do
        words+=("${line%%$'\x1f'*}")
        line=${line#*$'\x1f'}
    done
    read_arguments "${words[@]}"
    printf '%s\n' "$fault"
done
"""
VALUES = {"--columns": ("strict", "free", "Free", "", "strict|free"),
          "--stations": ("1", "+1", "01", "0", "17", "x", ""),
          "--query": ("hazard", "breach", "step", "steps", ""),
          "--number": ("0", "1", "16", "17", "+0", "00", "-0", "1.0"),
          "--depth": ("1", "16", "17", "0", "007", "+7", "++7", "4 ", " 4", "0x4", "4294967297"),
          "--conflicts": ("0", "200000", "200001", "99999999999999999999", "-1",
                          "000000000000000005"),
          "--cert": ("c", "-", "", "--cert", "a b", "a=b"), "--run": ("r", "-", "", "-r", "=")}
OTHERS = ("--", "-", "-x", "--html", "--help=", "--=x", "--col", "--columns", "x", "", "---",
          "CHECK", "--depth", "--cert", "-h=", "=", "--Cert")


def random_words(draw):
    """Returns random arguments: mostly a command with options, then some changes."""
    command = draw.choice(command_table.of_kind("command")).name
    words = [command] if draw.random() < 0.95 else []
    for option in command_table.of_kind("option"):
        is_own = command in option.value("commands").split()
        if draw.random() < (0.8 if is_own else 0.05):
            values = VALUES[option.name]
            value = draw.choice(values[:2] if draw.random() < 0.8 else values)
            pair = [f"{option.name}={value}"] if draw.random() < 0.5 else [option.name, value]
            place = draw.randint(0, len(words))
            words[place:place] = pair
    if draw.random() < 0.3:
        words.insert(draw.randint(0, len(words)), draw.choice(OTHERS))
    return words


# arguments that are easy to misread
WRITTEN = (
    [], ["check"], ["check", "--"], ["--", "check"], ["check", "--", "x"], ["--", "--", "check"],
    ["check", "-"], ["-"], ["verify", "--cert", "--"], ["verify", "--cert=--"],
    ["verify", "--cert", "-"], ["verify", "--cert", "-x"], ["verify", "--cert="],
    ["verify", "--cert", ""], ["--cert", "c", "verify"],
    ["verify", "--cert", "c", "--cert", "c"], ["check", "--cert", "c"],
    ["check", "--columns", "strict", "--columns", "strict"], ["make", "--stations", "16"],
    ["make", "--stations=0016"], ["make", "--stations=+0"],
    ["make", "--stations", "1", "--", "make"], ["export", "--query", "step", "--number", "0"],
    ["export", "--query", "step", "--number", "1"], ["export", "--number", "0", "--query", "step"],
    ["rup", "--query", "breach", "--number", "0", "--cert", "c"], ["replay", "--run", "--help"],
    ["replay", "--run=-h"], ["check", "verify"], ["check", ""], [""], ["", "check"],
    ["check", "--columns= strict"], ["check", "--columns", "strict "])


class UsageTests(ProgramTest):
    """A comparison of the launcher's and the program's reading of arguments."""

    def read_by_launcher(self, cases):
        """Returns for each case the fault that the launcher finds."""
        lines = "".join("".join(word + SEPARATOR for word in words) + "\n" for words in cases)
        done = subprocess.run(["bash", "-c", READER, "bash", str(TOP)], input=lines.encode(),
                              stdout=subprocess.PIPE, check=True)
        return done.stdout.decode().split("\n")[:-1]

    def status_of(self, words, directory):
        """Returns the program's exit status for arguments without input."""
        done = subprocess.run([self.program, *words], cwd=directory, stdin=subprocess.DEVNULL,
                              stdout=subprocess.DEVNULL, stderr=subprocess.DEVNULL, timeout=60)
        return done.returncode

    def test_reads_as_the_program(self):
        """The launcher names a wrong argument if and only if the program refuses its arguments."""
        draw = random.Random(1)
        cases = [*WRITTEN, *(random_words(draw) for _ in range(RANDOM_CASES))]
        found, faults, refused = self.read_by_launcher(cases), [], 0
        with tempfile.TemporaryDirectory(prefix="irv-usage-") as directory:
            for words, fault in zip(cases, found):
                is_refused = self.status_of(words, directory) == USAGE
                refused += is_refused
                if is_refused != bool(fault):
                    how = "refuses" if is_refused else "takes"
                    faults.append(f"{words}: the program {how} them, and the launcher finds "
                                  f"{fault or 'nothing'}")
        if not 400 < refused < len(cases) - 400:
            faults.append(f"{refused} of {len(cases)} are refused: too few or too many to compare")
        self.assertEqual(len(found), len(cases))
        self.see(faults, len(cases))
