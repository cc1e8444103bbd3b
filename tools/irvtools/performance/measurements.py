"""Reads the output of tools/benchmark."""

import re
from dataclasses import dataclass, field

HEAD = re.compile(r"(machine|day|program|solvers|conflicts|load): (.+)")
PLANT = re.compile(r"(.+), (\d+) sections, (\d+) points, (\d+) routes: (.+); (\d+\.\d+) s user, \d+\.\d+ s, "
                   r"(\d+) MiB")
CERTIFICATE = re.compile(r"    certificate of (\d+) bytes, (\d+) conflicts")
QUERY = re.compile(r"    (hazard|breach|step) (\d+): (\d+) variables, (\d+) clauses, (\d+) conflicts; "
                   r"export \d+\.\d+ s \d+ MiB; (.+)")
SOLVER = re.compile(r"(\w+) (?:-|(sat|unsat|over|status -?\d+) (\d+\.\d+) s (-|\d+) conflicts)")
CHECK = r"([^,;]+), (\d+\.\d+) s (\d+) MiB(?:; the yardstick: .+)?"
AUDIT = re.compile(f"    audit: {CHECK}")
RUP = re.compile(rf"    rup, a text of (\d+) bytes: {CHECK}")
PROVED = "crates/irv/out/irv"


class NotMeasured(Exception):
    """A text that tools/benchmark does not print; the message says which line."""


@dataclass
class Time:
    """Seconds; a lower bound if the call was ended."""

    seconds: float
    is_over: bool = False

    def __add__(self, other):
        return Time(self.seconds + other.seconds, self.is_over or other.is_over)


@dataclass
class Check:
    """The answer of audit or rup, with seconds and mebibytes."""

    answer: str
    seconds: float
    memory: int


@dataclass
class Plant:
    """A plant's figures. A solver's times are those of all queries of the certificate."""

    name: str
    sections: int
    points: int
    routes: int
    answer: str
    seconds: float
    memory: int
    certificate: int = 0
    conflicts: int = 0
    clauses: int = 0
    solvers: dict = field(default_factory=dict)
    audit: Check = None
    text: int = 0
    rup: Check = None


class Run:
    """The output of one call: its head, and its plants in order."""

    def __init__(self):
        self.head, self.loads, self.plants = {}, [], []

    def takes(self, line):
        """Takes a line; returns whether it is valid there."""
        head, plant = HEAD.fullmatch(line), PLANT.fullmatch(line)
        if head:
            self.head[head[1]] = head[2]
            self.loads += [head[2]] if head[1] == "load" else []
        elif plant:
            self.plants.append(Plant(plant[1], *map(int, plant.groups()[1:4]), plant[5], float(plant[6]),
                                     int(plant[7])))
        else:
            return bool(self.plants) and takes_part(self.plants[-1], line)
        return True

    def see_whole(self):
        """Checks that the head is complete and a plant exists."""
        for name in ("machine", "day", "program", "solvers", "load"):
            if name not in self.head:
                raise NotMeasured(f"there is no line of the {name}")
        if not self.plants:
            raise NotMeasured("there is no plant")


class Measured:
    """The output of one or more calls."""

    def __init__(self, text):
        self.runs = []
        for number, line in enumerate(text.splitlines(), 1):
            if line.startswith("machine: ") or not self.runs:
                self.runs.append(Run())
            if not self.runs[-1].takes(line):
                raise NotMeasured(f"line {number} is none of tools/benchmark: {line}")
        for run in self.runs or [Run()]:
            run.see_whole()
        self.plants = [plant for run in self.runs for plant in run.plants]

    @property
    def is_proved(self):
        """Returns whether every run used the proved build."""
        return all(run.head["program"].startswith(f"{PROVED},") for run in self.runs)

    @property
    def machines(self):
        """Returns the machines, each once."""
        return list(dict.fromkeys(run.head["machine"] for run in self.runs))


def takes_part(plant, line):
    """Takes a line of a plant; returns whether it is one."""
    certificate, query = CERTIFICATE.fullmatch(line), QUERY.fullmatch(line)
    audit, rup = AUDIT.fullmatch(line), RUP.fullmatch(line)
    if certificate:
        plant.certificate, plant.conflicts = int(certificate[1]), int(certificate[2])
    elif query:
        plant.clauses = max(plant.clauses, int(query[4]))
        return all(takes_solver(plant, told) for told in query[6].split("; "))
    elif audit:
        plant.audit = Check(audit[1], float(audit[2]), int(audit[3]))
    elif rup:
        plant.text, plant.rup = int(rup[1]), Check(rup[2], float(rup[3]), int(rup[4]))
    return bool(certificate or audit or rup)


def takes_solver(plant, told):
    """Adds a solver's figures for a query; returns whether they are well written. A missing solver
    has no time."""
    found = SOLVER.fullmatch(told)
    if found and found[2] in ("sat", "unsat", "over"):
        time = Time(float(found[3]), found[2] == "over")
        plant.solvers[found[1]] = plant.solvers.get(found[1], Time(0)) + time
    return bool(found)
