"""Runs the cases of `tests/cases/*.cases` over the program."""

import concurrent.futures
import os
import shlex
import tempfile
from pathlib import Path
from tests.cases import answer_checks
from tests.support import case_files
from irvtools.calls import first_lines
from tests.cases import member_cases
from tests.support import program as programs
from tests.cases import well_formed
from tests.support.harness import ProgramTest, Test

TAKES_LONG = True

THREADS = 2
SHOWN_BYTES = 2000


def lay_out(program, case, directory):
    """Writes a case's files and directories, and makes its first calls. Returns the files that
    exist then."""
    for name in case.directories:
        (directory / name).mkdir()
    for name, data in case.files.items():
        (directory / name).write_bytes(data)
    for name, (size, beginning) in case.sparse.items():
        (directory / name).write_bytes(beginning)
        os.truncate(directory / name, size)
    for words in case.before:
        output, _, status = programs.call(program, words, case.conf, directory)
        if status not in first_lines.STATUS_OF.values():
            raise programs.NoAnswer(f"{shlex.join(words)} ends with {status}: {shown(output)}")
    return answer_checks.files_in(directory)


def shown(data):
    """Returns bytes as one line, cut if long."""
    if len(data) > SHOWN_BYTES:
        return f"{data[:SHOWN_BYTES]!r} and {len(data) - SHOWN_BYTES} bytes more"
    return repr(data)


def answer_faults(program, case, directory, before, output, errors, status):
    """Yields the faults of an answer and of the files it left."""
    wanted = [("stderr", case.wanted_stderr(), errors)]
    if case.verdicts:
        yield from answer_checks.verdict_faults(program, case, directory, output, status)
    elif case.has_formula:
        yield from answer_checks.formula_faults(case, output)
    else:
        wanted.append(("stdout", case.stdout, output))
    for what, right, got in wanted:
        if right != got:
            yield f"{what} wanted {shown(right)}\n    {what} got    {shown(got)}"
    if case.status is not None and status != case.status:
        yield f"status wanted {case.status}, got {status}"
    yield from answer_checks.file_faults(program, case, directory, output, before)


def fault_of(program, case):
    """Returns the fault of a case's call, or nothing."""
    with tempfile.TemporaryDirectory(prefix="irv-case-") as name:
        directory = Path(name)
        conf = None if case.conf_is_folder else case.conf
        try:
            before = lay_out(program, case, directory)
            answer = programs.call(program, case.words, conf, directory,
                                   case.memory_mebibytes, case.output_is_full, case.closed)
            faults = list(answer_faults(program, case, directory, before, *answer))
        except programs.NoAnswer as fault:
            faults = [str(fault)]
    return "\n".join(f"    {fault}" for fault in faults)


def cases_by_file():
    """Returns every case, by file; the member table's cases are together."""
    found = {path.stem: case_files.read_case_file(path) for path in sorted(case_files.CASES.glob("*.cases"))}
    return {**found, "members": list(member_cases.member_cases())}


class WellFormedTests(Test):
    """The cases by themselves."""

    def test_well_formed(self):
        """Each case and each example is well formed."""
        cases = [case for each in cases_by_file().values() for case in each]
        self.checks = well_formed.check(cases)[1]


class CaseTests(ProgramTest):
    """The cases over the program."""

    def see_cases(self, cases):
        """Runs cases, several at once."""
        with concurrent.futures.ThreadPoolExecutor(THREADS) as pool:
            found = list(pool.map(lambda case: fault_of(self.program, case), cases))
        self.see([f"{case.where}: {case.name}\n    why: {case.why}\n{fault}"
                  for case, fault in zip(cases, found) if fault], len(cases))


def add_files():
    """Adds a test for each file of cases."""
    for name, cases in cases_by_file().items():
        def test(self, cases=cases):
            self.see_cases(cases)
        setattr(CaseTests, "test_" + name, test)


add_files()
