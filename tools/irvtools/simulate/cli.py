"""The command line of `irv --simulate`: writes the interactive simulator, and compares saved runs."""

import sys
from pathlib import Path
from types import SimpleNamespace

from irvtools.arguments import Parser, standard_input
from irvtools.html.options import Refused, is_same, name_of_input, read_labels
from irvtools.simulate.compare import check
from irvtools.simulate.simulator_page import SimulatorPage

NOT_WRITTEN = 125       # no answer of the program has this status


def parser():
    line = Parser("irv --simulate", "Writes an HTML page on which the plant is operated by hand, "
                                    "or "
                  "compares a saved run with the answers of\n`irv replay` and `irv drive`.\n\n"
                  "The exit status is 0 if the page was written or the answers agree, 1 if they "
                  "differ, otherwise 125.", NOT_WRITTEN,
                  "irv --simulate OUT.html | --compare FILE [OPTIONS] < CONFIGURATION")
    line.add_argument("out", metavar="OUT.html", nargs="?", help="the simulator's file")
    line.once("--compare", "a file that the simulator saved, a run or a scenario", metavar="FILE")
    line.once("--labels", "show the labels in the CSV files of this directory beside the names",
              metavar="DIRECTORY")
    line.program()
    return line


def write(out, program, labels):
    """Writes the simulator; returns the exit status."""
    if is_same(str(out), "/proc/self/fd/0"):
        print(f"irv --simulate: {out} is the file of standard input and would be overwritten",
              file=sys.stderr)
        return NOT_WRITTEN
    options = SimpleNamespace(name=name_of_input(), program=program, program_file=Path(program),
                              labels=labels)
    page = SimulatorPage(options, standard_input("irv --simulate", NOT_WRITTEN))
    try:
        out.write_text(page.make(), encoding="utf-8", errors="replace")
    except OSError as fault:
        print(f"irv --simulate: {fault}", file=sys.stderr)
        return NOT_WRITTEN
    print(f"{out}: {page.outcome}")
    return 0


def main(words):
    """Runs the command line; returns the exit status."""
    line = parser()
    given = line.parse_args(words)
    if (given.out is None) == (given.compare is None):
        line.error("give either OUT.html or --compare FILE")
    program = given.program.absolute()
    if not program.is_file():
        print(f"irv --simulate: the program {program} does not exist; build it with ./irv --build",
              file=sys.stderr)
        return NOT_WRITTEN
    if given.out is not None:
        try:
            return write(Path(given.out), str(program), read_labels(given.labels))
        except Refused as refused:
            print(f"irv --simulate: {refused}", file=sys.stderr)
            return NOT_WRITTEN
    if given.labels is not None:
        line.error("--labels does not go with --compare")
    return check(given.compare, str(program), standard_input("irv --simulate", NOT_WRITTEN))
