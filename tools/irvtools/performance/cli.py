"""The command line of `tools/update_performance`: measures, and updates the performance page."""

import subprocess
import sys
from pathlib import Path

from irvtools.arguments import Parser
from irvtools.paths import PROGRAM, TOP
from irvtools.performance.chart import Picture
from irvtools.performance.measurements import Measured, NotMeasured
from irvtools.performance.tables import PICTURE, NoPlace, renewed

PLANTS = ["1", "2", "4", "8", "16", "examples/terminus-throat.json", "s", "2s", "8L", "11L", "2s3L", "bs",
          "sLs", "2b", "b2s3L", "bsbsb"]
LIMITS = ["seconds=200", "conflicts=200000"]
REAL = TOP / "out/tables"       # tables of real stations, from tests/write_tables
TEXT = TOP / "tools/irvtools/performance/measurements.txt"
PAGE = TOP / "docs/dev/performance.md"
PICTURES = TOP / "docs/pictures"


def parser():
    line = Parser("tools/update_performance", "Measures the program by tools/benchmark, keeps what it prints, "
                  "and updates the tables and the chart of\ndocs/dev/performance.md. It takes an hour "
                  "or more; run nothing else meanwhile.", 2,
                  "tools/update_performance [OPTIONS] [WORD ..]")
    line.add_argument("words", nargs="*", metavar="WORD", help="plants and limits for tools/benchmark "
                      "(the lines of the page)")
    line.once("--of", "use what tools/benchmark printed before, and measure nothing", metavar="FILE")
    line.once("--program", "the program that is measured (crates/irv/out/irv)", default=PROGRAM,
              type=Path, metavar="FILE")
    return line


def real_tables():
    """Returns the files with tables of real stations."""
    return [str(path) for path in sorted(REAL.glob("*.json"))]


def measure(program, words):
    """Measures all, shows the output as it comes, and writes it to `TEXT`."""
    words = words or [*PLANTS, *real_tables(), *LIMITS]
    command = [str(TOP / "tools/benchmark"), str(program.resolve()), *words]
    with subprocess.Popen(command, cwd=TOP, stdout=subprocess.PIPE, text=True) as child:
        lines = []
        for line in child.stdout:
            print(line, end="", flush=True)
            lines.append(line)
    if child.returncode != 0:
        sys.exit(f"tools/update_performance: tools/benchmark ended with status {child.returncode}")
    TEXT.write_text("".join(lines), encoding="utf-8")


def write(path):
    """Writes the tables and the chart from the output."""
    measured = Measured(Path(path).read_text(encoding="utf-8"))
    PAGE.write_text(renewed(PAGE.read_text(encoding="utf-8"), measured), encoding="utf-8")
    (PICTURES / Path(PICTURE).name).write_text(Picture(measured.plants).drawn(), encoding="utf-8")


def main(words):
    """Measures or reads, and updates the page; returns the exit status."""
    given = parser().parse_args(words)
    try:
        if given.of is None:
            measure(given.program, given.words)
        write(TEXT if given.of is None else given.of)
    except (NotMeasured, NoPlace, OSError) as fault:
        print(f"tools/update_performance: {fault}", file=sys.stderr)
        return 1
    return 0
