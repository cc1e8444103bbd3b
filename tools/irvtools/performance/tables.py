"""The generated part of docs/dev/performance.md: tables and chart link."""

from __future__ import annotations

import re
from typing import Callable

from irvtools.performance.measurements import PROVED, Measured, Time

BEGIN, END = "<!-- measured: begins -->\n", "<!-- measured: ends -->\n"
SOLVERS = ("cadical", "minisat", "picosat")
MADE = re.compile(r"stations ([0-9]+)")
PICTURE = "../pictures/performance.svg"


class NoPlace(Exception):
    """A document without the two markers."""


def shown(name):
    """Returns a plant's name: a number of generated stations, a line's letters, or a file."""
    made = MADE.fullmatch(name)
    if made:
        return f"{made[1]} generated station{'' if made[1] == '1' else 's'}"
    return name


def seconds(time):
    """Returns seconds in about three digits."""
    if time is None:
        return "-"
    digits = 2 if time.seconds < 10 else 1 if time.seconds < 100 else 0
    return f"{'over ' if time.is_over else ''}{time.seconds:.{digits}f}"


def megabytes(count):
    """Returns bytes in millions."""
    return f"{count / 1e6:.1f}" if count else "-"


def table(head, rows):
    """Returns a Markdown table."""
    lines = [f"| {' | '.join(row)} |" for row in (head, *rows)]
    return "\n".join([lines[0], "|" + "---|" * len(head), *lines[1:]]) + "\n"


def answers(plants):
    """Returns the table of verify and of other solvers."""
    head = ["plant", "sections, points, routes", "answer", "`verify`, s", "MiB", "conflicts",
            *(f"{name}, s" for name in SOLVERS)]
    return table(head, [[shown(plant.name), f"{plant.sections}, {plant.points}, {plant.routes}", plant.answer,
                         seconds(Time(plant.seconds)), str(plant.memory), str(plant.conflicts),
                         *(seconds(plant.solvers.get(name)) for name in SOLVERS)] for plant in plants])


def check(found):
    """Returns the cells for audit or rup, or its answer if unexpected."""
    if found is None:
        return ["-", "-"]
    if not found.answer.startswith(("accepted", "refuted")):
        return [found.answer, "-"]
    return [seconds(Time(found.seconds)), str(found.memory)]


def checks(plants):
    """Returns the table of audit and rup."""
    head = ["plant", "certificate, MB", "`audit`, s", "MiB", "cadical's text, MB", "`rup`, s", "MiB"]
    return table(head, [[shown(plant.name), megabytes(plant.certificate), *check(plant.audit),
                         megabytes(plant.text), *check(plant.rup)] for plant in plants])


def conditions(run):
    """Returns the machine, program and solvers of a run."""
    name, _, rest = run.head["program"].partition(", ")
    program = (f"The program was the proved one, `{PROVED}` ({rest})." if name == PROVED else
               f"**The program was not proved**: it was built from the sources of that day without "
               f"their proofs ({name}, {rest}).")
    budget = run.head.get("conflicts")
    if budget:
        program += f" `verify` was called with `--conflicts {budget}`."
    return f"{run.head['machine']}. {program} Other solvers: {run.head['solvers']} of CPU time."


def origin(run, whose, first=None):
    """Returns how a run of tools/benchmark was measured, less what it shares with the run `first`;
    `whose` begins the first sentence."""
    loads = sorted(run.loads, key=float)
    same = first is not None and conditions(first) == conditions(run)
    how = " in the same way." if same else f": {conditions(run)}"
    return (f"{whose} on {run.head['day']}{how} Load average over one minute, at the beginning and "
            f"the end: {' to '.join(dict.fromkeys((loads[0], loads[-1])))}.\n")


def origins(measured):
    """Returns that for each call, with its plants if there are several calls."""
    runs = measured.runs
    if len(runs) == 1:
        return origin(runs[0], "Measured")
    ends = [list(dict.fromkeys(shown(run.plants[place].name) for place in (0, -1))) for run in runs]
    return "\n".join(origin(run, f"{' to '.join(names)}, measured", runs[0] if number else None)
                     for number, (run, names) in enumerate(zip(runs, ends)))


def part(measured: Measured) -> str:
    """Returns the generated part without its markers."""
    return (f"\n{origins(measured)}\n{answers(measured.plants)}\n"
            f"![Seconds over the number of sections]({PICTURE})\n\n{checks(measured.plants)}\n")


def renewed(document: str, measured: Measured, made: Callable[[Measured], str] = part) -> str:
    """Returns the document with a new generated part."""
    before, begin, rest = document.partition(BEGIN)
    _, end, behind = rest.partition(END)
    if not begin or not end:
        raise NoPlace("the document lacks the markers of the generated part")
    return before + begin + made(measured) + end + behind
