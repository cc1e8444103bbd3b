"""Tests of the performance page: its tables and chart match the kept measurement, and their code is
right.

The tables and the chart of a made-up measurement are compared with hand-derived values. Texts that
tools/benchmark does not print are rejected. The double-track lines must be those of
`tests/plants/`, with as many sections, points and routes as their parts.
"""

import json
import xml.etree.ElementTree
from irvtools.generators import double_track
from irvtools.performance import measurements
from irvtools.performance import chart
from irvtools.performance import tables
from irvtools.performance.cli import PAGE, TEXT
from irvtools.paths import TOP
from tests.support.harness import Test

MADE_UP = """\
machine: A Processor, 2 processors, 8 GiB of memory
day: 2020-02-29
program: crates/irv/out/irv, sha256 0123
solvers: cadical 1, minisat 2, picosat isn't there; ended after 50 seconds
conflicts: 300000
load: 0.1
stations 1, 6 sections, 2 points, 8 routes: safe k=1; 0.09 s user, 2.26 s, 20 MiB
    certificate of 746347 bytes, 1430 conflicts
    hazard 0: 328 variables, 963 clauses, 0 conflicts; export 0.00 s 20 MiB; cadical unsat 0.25 s - conflicts; minisat unsat 0.50 s 0 conflicts; picosat -
    step 1: 1573 variables, 5912 clauses, 1421 conflicts; export 0.00 s 20 MiB; cadical unsat 0.50 s 2711 conflicts; minisat over 50.00 s - conflicts; picosat -
    audit: accepted k=1, 0.01 s 21 MiB; the yardstick: accepted, 0.02 s 22 MiB
    rup, a text of 524679 bytes: refuted step 1, 0.17 s 23 MiB
stations 2, 11 sections, 4 points, 16 routes: safe k=1; 1.50 s user, 2.26 s, 30 MiB
    certificate of 1500000 bytes, 2000 conflicts
    step 1: 1573 variables, 5912 clauses, 2000 conflicts; export 0.00 s 20 MiB; cadical unsat 12.34 s 2711 conflicts; minisat unsat 0.01 s 5 conflicts; picosat -
    audit: accepted k=1, 0.01 s 20 MiB
line 11L, 112 sections, 44 points, 176 routes: spent conflicts=100000; 123.45 s user, 130.00 s, 300 MiB
load: 2.5
"""
ROWS = [
    "| 1 generated station | 6, 2, 8 | safe k=1 | 0.09 | 20 | 1430 | 0.75 | over 50.5 | - |",
    "| 2 generated stations | 11, 4, 16 | safe k=1 | 1.50 | 30 | 2000 | 12.3 | 0.01 | - |",
    "| line 11L | 112, 44, 176 | spent conflicts=100000 | 123 | 300 | 0 | - | - | - |",
    "| 1 generated station | 0.7 | 0.01 | 21 | 0.5 | 0.17 | 23 |",
    "| 2 generated stations | 1.5 | 0.01 | 20 | - | - | - |",
    "| line 11L | - | - | - | - | - | - |",
]
SENTENCES = ["Measured on 2020-02-29: A Processor, 2 processors, 8 GiB of memory.", "The program was the proved one",
             "`verify` was called with `--conflicts 300000`.", "ended after 50 seconds of CPU time",
             "at the beginning and the end: 0.1 to 2.5."]
# the output of another call after it, and the sentences about each call
ANOTHER = """\
machine: Another, 1 processors, 4 GiB of memory
day: 2020-03-01
program: crates/irv/out/irv, sha256 4567
solvers: cadical 2, minisat 2, picosat isn't there; ended after 50 seconds
load: 0.3
line s, 14 sections, 8 points, 20 routes: safe k=1; 0.65 s user, 0.70 s, 16 MiB
load: 0.3
"""
EACH = ["1 generated station to line 11L, measured on 2020-02-29: A Processor, 2 processors, 8 GiB of memory.",
        "line s, measured on 2020-03-01: Another, 1 processors, 4 GiB of memory.", "(sha256 0123)", "(sha256 4567)",
        "cadical 1, minisat 2", "cadical 2, minisat 2", "the end: 0.1 to 2.5.", "the end: 0.3.",
        "| line 11L | 112, 44, 176 | spent conflicts=100000 | 123 | 300 | 0 | - | - | - |",
        "| line s | 14, 8, 20 | safe k=1 | 0.65 | 16 | 0 | - | - | - |"]
# changes that make the measurement invalid
BAD = [("day: 2020-02-29\n", ""), ("    audit: accepted", "    audit accepted"), ("6 sections", "six sections"),
       ("cadical unsat 0.25 s", "cadical maybe 0.25 s"), ("load: 2.5\n", "load: 2.5\nTraceback\n"),
       ("load: 2.5\n", "load: 2.5\nmachine: Another\n")]
# lines with their sections, points and routes; of s 12, 8, 20, of b 18, 12, 40, of L 10, 4, 16
LINES = {"s": (14, 8, 20), "b": (20, 12, 40), "L": (12, 4, 16), "11L": (112, 44, 176), "b2s3L": (74, 40, 128)}


def table_faults():
    """Yields the faults in the made-up measurement's tables."""
    document = f"before\n{tables.BEGIN}old\n{tables.END}behind\n"
    text = tables.renewed(document, measurements.Measured(MADE_UP))
    lines = text.splitlines()
    yield from (f"no row {row}" for row in ROWS if lines.count(row) != 1)
    yield from (f"not said: {sentence}" for sentence in SENTENCES if sentence not in text)
    if len([line for line in lines if line.startswith("| ")]) != len(ROWS) + 2:
        yield "there are other rows"
    if not text.startswith("before\n") or not text.endswith("behind\n") or "old" in text:
        yield "not that part alone was made anew"
    if tables.renewed(text, measurements.Measured(MADE_UP)) != text:
        yield "made again, it is another text"
    unproved = measurements.Measured(MADE_UP.replace("program: crates/irv/out/irv", "program: irv-unproved"))
    if "**The program was not proved**" not in tables.renewed(document, unproved) or "not proved" in text:
        yield "it isn't said which program is proved"


def several_faults():
    """Yields the faults if several calls were printed one after another."""
    several = measurements.Measured(MADE_UP + ANOTHER)
    text = tables.part(several)
    yield from (f"not said of several: {sentence}" for sentence in EACH if text.count(sentence) != 1)
    half = measurements.Measured(MADE_UP + ANOTHER.replace("program: crates/irv/out/irv", "program: irv-unproved"))
    if tables.part(half).count("**The program was not proved**") != 1:
        yield "it isn't said which call's program is proved"


def refusal_faults():
    """Yields the invalid measurements that are accepted."""
    for old, new in BAD:
        try:
            measurements.Measured(MADE_UP.replace(old, new, 1))
            yield f"{new!r} is read in place of {old!r}"
        except measurements.NotMeasured:
            pass
    try:
        tables.renewed("no marks", measurements.Measured(MADE_UP))
        yield "a document without marks is written"
    except tables.NoPlace:
        pass


def picture_faults():
    """Yields the faults in the made-up measurement's chart."""
    drawn = chart.Picture(measurements.Measured(MADE_UP).plants)
    root = xml.etree.ElementTree.fromstring(drawn.drawn())
    titles = sorted(title.text for title in root.iter("{http://www.w3.org/2000/svg}title"))
    wanted = ["line 11L, irv verify: 123.45 s", "stations 1, cadical: 0.75 s", "stations 1, irv verify: 0.09 s",
              "stations 1, minisat: over 50.50 s", "stations 2, cadical: 12.34 s", "stations 2, irv verify: 1.50 s",
              "stations 2, minisat: 0.01 s"]
    if titles != wanted:
        yield f"the marks are {titles}"
    plants = {plant.name: plant for plant in drawn.plants}
    one, two, line = (drawn.place(plants[name], "irv verify") for name in ("stations 1", "stations 2", "line 11L"))
    if not (one[0] < two[0] < line[0] and one[1] > two[1] > line[1]):
        yield f"more isn't farther to the right, or not higher: {one}, {two}, {line}"
    scale = chart.Scale([1, 600], 0, 300)
    if [round(scale.at(number)) for number in (1, 10, 100, 1000)] != [0, 100, 200, 300]:
        yield "the scale isn't one of logarithms"


def repository_faults():
    """Yields the repository's differences from the kept measurement."""
    found = measurements.Measured(TEXT.read_text(encoding="utf-8"))
    page = PAGE.read_text(encoding="utf-8")
    if tables.renewed(page, found) != page:
        yield "docs/dev/performance.md is not what tools/update_performance --of measurements.txt makes"
    if (PAGE.parent / tables.PICTURE).read_text(encoding="utf-8") != chart.Picture(found.plants).drawn():
        yield "the chart is not what tools/update_performance --of measurements.txt makes"


def line_faults():
    """Yields the wrong double-track lines."""
    for word, wanted in LINES.items():
        document = json.loads(double_track.configuration(word))
        sections = document["sections"]
        got = len(sections), sum(section["kind"] == "point" for section in sections), len(document["routes"])
        if got != wanted:
            yield f"{word} has {got}, and {wanted} are wanted"
    for word in ("s", "bs"):
        kept = (TOP / f"tests/plants/{word}.json").read_text(encoding="utf-8")
        if json.loads(double_track.configuration(word)) != json.loads(kept):
            yield f"{word} isn't tests/plants/{word}.json"
    if double_track.letters_of("b2s3L") != "bssLLL" or double_track.LINE.fullmatch("12"):
        yield "words of lines are read wrongly"


class PerformanceTests(Test):
    """Tests of the performance page and of the code that makes it."""


def add_checks():
    """Adds a test for each check."""
    for check in (table_faults, several_faults, refusal_faults, picture_faults, repository_faults, line_faults):
        def test(self, check=check):
            self.see(check())
        test.__doc__ = check.__doc__
        setattr(PerformanceTests, "test_" + check.__name__.removesuffix("_faults"), test)


add_checks()
