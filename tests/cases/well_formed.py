"""Checks the cases by themselves, without the program."""

import json
import re

from irvtools.generators import configurations
from irvtools.calls import first_lines
from tests.support import program
from tests.support import handwritten_certificates
from tests.support.case_files import EXAMPLES, STATUSES, CaseError

RULES = ["F1", "F2", "F3", "F4", "F5", "F6",
         "N1", "N2", "N3", "N4", "N5", "N6", "N7", "N8",
         "R1", "R2", "R3", "R4", "R5", "R6", "R7", "R8",
         "C1", "C2", "C3", "C4", "C5", "C6", "C7", "C8", "G1", "G2"]
NAME = "[A-Za-z0-9_-]{1,32}"
REFUSED = re.compile(r"refused ([A-Z][0-9]) "
                     r"(document|extra|[a-z]+\[[0-9]+\](?: routes\[[0-9]+\])?)")
PLACES = {"N1": "sections", "N2": "boards", "N3": "sections", "N4": "sections", "N5": "sections",
          "N6": "sections", "N7": "sections", "N8": "sections", "C7": "sections",
          "G1": "boards", "G2": "document"}
HAZARD = f"hazard (two|wrong) {NAME}"
STEPS = rf" steps=(0|[1-9][0-9]*)\nrun 1\nstart\n([a-z]+ {NAME}\n)*end\n"
REPORTS = {
    0: re.compile(rf"clean\n|{HAZARD}\n|accepted k=([1-9]|1[0-6])\n|driven{STEPS}"
                  rf"|refuted (hazard|breach|step) (0|[1-9][0-9]*)\n|{first_lines.STATIONS}safe k=1\n"),
    1: re.compile(rf"{HAZARD}{STEPS}"),
    6: re.compile(r"no hazard\n|not a run at [1-9][0-9]*\n|rejected (line|item) [1-9][0-9]*\n"
                  rf"|stuck at [1-9][0-9]*{STEPS}"),
}
PRINTS_CONFIGURATIONS = ("make", "table")
CERTIFIES = ("verify", "demo")


def entry_of(case, line):
    """Returns a refusal line's rule number and places."""
    match = REFUSED.fullmatch(line)
    if not match or match[1] not in RULES:
        raise CaseError(f"{case.where}: {case.name}: no refusal: {line!r}")
    rule, place = match[1], match[2]
    numbers = [int(number) for number in re.findall(r"\[([0-9]+)\]", place)]
    kind = place.partition("[")[0]
    wanted = PLACES.get(rule, kind if rule[0] == "F" else "routes")
    if kind != wanted or (len(numbers) == 2) != (rule in ("C5", "C6", "C8")):
        raise CaseError(f"{case.where}: {case.name}: no place of {rule}: {place}")
    return RULES.index(rule), numbers


def check_refusals(case):
    """Checks that refusals have one stage and are in order, and that only check prints several
    lines."""
    lines = case.stdout.decode().splitlines()
    entries = [entry_of(case, line) for line in lines]
    if any(not before < after for before, after in zip(entries, entries[1:])):
        raise CaseError(f"{case.where}: {case.name}: the refusals aren't in order")
    if len({line.split()[1][0] for line in lines}) != 1:
        raise CaseError(f"{case.where}: {case.name}: the refusals are of several stages")
    if len(lines) != 1 and ("check" not in case.words or " F" in lines[0]):
        raise CaseError(f"{case.where}: {case.name}: more than one refusal")


def check_answer(case):
    """Checks that verdicts are verify's, and that formulas and certificates belong to their
    commands."""
    for verdict in case.verdicts:
        if not first_lines.VERDICT.fullmatch(verdict):
            raise CaseError(f"{case.where}: {case.name}: no verdict: {verdict!r}")
    commands = ("export",) if case.has_formula else CERTIFIES
    due = case.verdicts or case.has_formula or case.certificate
    if due and not any(command in case.words for command in commands):
        raise CaseError(f"{case.where}: {case.name}: not an answer of {' or '.join(commands)}")
    if (case.verdicts or case.certificate) and program.option(case.words, "--cert") is None:
        raise CaseError(f"{case.where}: {case.name}: no file for the certificate")


def is_printed(text):
    """Returns whether a text is a configuration as the program prints it."""
    return text == configurations.printed(json.loads(text))


def check_report(case):
    """Checks that output is a report of its status, and every report is output."""
    if any(command in case.words for command in PRINTS_CONFIGURATIONS) and case.status == 0:
        if not is_printed(case.stdout):
            raise CaseError(f"{case.where}: {case.name}: not as a configuration is printed")
    elif case.status in REPORTS:
        if not REPORTS[case.status].fullmatch(case.stdout.decode()):
            raise CaseError(f"{case.where}: {case.name}: no report: {case.stdout!r}")
    elif case.stdout:
        raise CaseError(f"{case.where}: {case.name}: output with status {case.status}")


def check_case(case):
    """Checks that the program has the case's status, and the output fits."""
    check_answer(case)
    if case.stdout is None:
        return
    if case.status not in STATUSES or 1 < case.status < 5:
        raise CaseError(f"{case.where}: {case.name}: no such status: {case.status}")
    if case.status == 5:
        check_refusals(case)
    else:
        check_report(case)


def check(cases):
    """Checks all cases and examples. Returns a line with their counts, and the total."""
    seen = set()
    for case in cases:
        check_case(case)
        key = (case.where.partition(":")[0], case.name)
        if key in seen:
            raise CaseError(f"{case.where}: two cases are called {case.name}")
        seen.add(key)
    plants = sorted(EXAMPLES.glob("*.json"))
    for path in plants:
        json.loads(path.read_text(encoding="utf-8"))
    runs = sorted(EXAMPLES.glob("*.run"))
    for path in runs:
        text = path.read_text(encoding="ascii")
        if not (text.startswith("run 1\n") and text.endswith("\nend\n")):
            raise CaseError(f"{path}: no run's text")
    told = handwritten_certificates.check_all()
    return (f"{len(cases)} cases, {len(plants)} plants and {len(runs)} runs are well formed; "
            f"{told} certificates are told apart"), len(cases) + len(plants) + len(runs) + told
