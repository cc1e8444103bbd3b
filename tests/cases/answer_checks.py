"""Checks of answers that are not known to the byte: verdicts with runs and certificates, and
formulas."""

import re

from irvtools.checkers import certificate
from irvtools.checkers import dimacs
from tests.support import program as programs
from irvtools.calls.first_lines import HAZARD, STATUS_OF, judgement, kind_of

LARGE_FILE = 2 ** 24


def certificate_of(verdict):
    """Returns the second line of a verdict's certificate, or nothing."""
    if kind_of(verdict) not in ("safe", "spent"):
        return None
    return f"{kind_of(verdict)} {judgement(verdict).partition('=')[2]}"


def columns(case):
    """Returns the arguments that give another call the case's columns."""
    return ["--columns", programs.option(case.words, "--columns", "strict")]


def run_faults(program, case, directory, verdict, text):
    """Yields the faults of the run after a verdict: its beginning, its number of events, and the
    program's replay of it."""
    lines = text.decode().splitlines()
    beginning = "state" if kind_of(verdict) == "not" else "start"
    if lines[:2] != ["run 1", beginning] or not text.endswith(b"\nend\n"):
        yield f"no run's text that begins with {beginning}: {text!r}"
        return
    first = lines.index("events") + 1 if beginning == "state" else 2
    steps = int(re.search(r"steps=([0-9]+)", verdict)[1])
    if len(lines) - first - 1 != steps:
        yield f"{steps} steps are told, and the run has {len(lines) - first - 1} events"
    (directory / "told.run").write_bytes(text)
    words = ["replay", *columns(case), "--run", "told.run"]
    shown, _, status = programs.call(program, words, case.conf, directory)
    (directory / "told.run").unlink()
    hazard = verdict.partition(" hazard=")[2]
    wanted = rf"hazard {hazard}\n" if hazard else "no hazard\n"
    if kind_of(verdict) == "not":
        wanted = rf"no hazard\n|hazard {HAZARD}\n"
    if not re.fullmatch(wanted, shown.decode()):
        yield f"replay shows {shown!r} with status {status} of the run {text!r}"


def verdict_faults(program, case, directory, output, status):
    """Yields the faults of verify's answer."""
    line, _, text = output.partition(b"\n")
    verdict = line.decode()
    if verdict not in case.verdicts:
        yield f"verdict wanted {' or '.join(case.verdicts)}\n    verdict got    {verdict}"
        return
    if status != STATUS_OF[kind_of(verdict)]:
        yield f"status wanted {STATUS_OF[kind_of(verdict)]}, got {status}"
    if certificate_of(verdict) is None:
        yield from run_faults(program, case, directory, verdict, text)
    elif text or not output.endswith(b"\n"):
        yield f"stdout has more than the verdict: {text!r}"


def certificate_faults(program, case, directory, wanted, text):
    """Yields the faults of a certificate, by a separate check over the program's exported formulas."""
    def formula_of(kind, number):
        words = ["export", *columns(case), "--query", kind, "--number", str(number)]
        output, errors, status = programs.call(program, words, case.conf, directory)
        if status != 0:
            raise certificate.CertificateError(f"export of {kind} {number}: {errors!r}")
        return dimacs.read(output)

    try:
        told = certificate.check(text, formula_of)
        if told != wanted:
            yield f"a certificate of {told}, and not of {wanted}"
    except (certificate.CertificateError, dimacs.DimacsError) as fault:
        yield f"no certificate of {wanted}: {fault}"


def content(path):
    """Returns a file's bytes, or a very long one's length."""
    size = path.stat().st_size
    return path.read_bytes() if size <= LARGE_FILE else size


def files_in(directory):
    """Returns the files of a case's directory, with their bytes."""
    return {str(path.relative_to(directory)): content(path) for path in directory.rglob("*") if path.is_file()}


def file_faults(program, case, directory, output, before):
    """Yields the faults of the files after a call: the certificate exists if due, and all others
    are unchanged."""
    wanted = case.certificate
    if case.verdicts:
        wanted = certificate_of(output.partition(b"\n")[0].decode())
    files, before = files_in(directory), dict(before)
    if wanted is not None:
        name = programs.option(case.words, "--cert")
        before.pop(name, None)
        if files.pop(name, None) is None:
            yield f"no certificate in {name}"
        else:
            text = (directory / name).read_bytes()
            yield from certificate_faults(program, case, directory, wanted, text)
    for name in sorted(files.keys() | before.keys()):
        if files.get(name) != before.get(name):
            yield f"the file {name} isn't as it was"


def formula_faults(case, output):
    """Yields the faults of an exported formula."""
    try:
        formula = dimacs.read(output)
    except dimacs.DimacsError as fault:
        yield f"no formula: {fault}"
        return
    if case.assignments is not None:
        count = dimacs.count_assignments(formula, case.assignments)
        if count != case.assignments:
            more = " or more" if count > case.assignments else ""
            yield f"assignments wanted {case.assignments}, got {count}{more}"
