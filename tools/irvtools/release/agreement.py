"""The independent checks of the qualification page (section Diversity), the tests that compare each
with the program, and how many cases agreed by the output of CI."""

from __future__ import annotations

import re
from dataclasses import dataclass
from typing import Iterable, Iterator

from irvtools.docs.tables import rows
from irvtools.release.ci_log import Tests, Unread

PAGE = "docs/assurance/qualification.md"
HEAD = ("check", "independent of", "shared with the program", "tests")
CODE = re.compile("`([^`]+)`")


@dataclass(frozen=True)
class Independent:
    """A check, as its row on the page names it: the tests of CI that compare it with the program, and
    the extra test suites, outside CI, that do."""
    check: str
    tests: tuple[str, ...] = ()
    extra: tuple[str, ...] = ()


CHECKS = (
    Independent("`audit`", ("deviations.clean_tables",)),
    Independent("`tools/audit` (Python)",
                ("audit.line_with_boards", "audit.platforms", "audit.station")),
    Independent("`tools/irvtools/checkers/certificate_judge.c` (C)", extra=("tests/fuzz_audit",)),
    Independent("LRAT checkers, such as `tools/irvtools/checkers/lrat.py`",
                ("lrat.line_with_boards", "lrat.platforms", "lrat.station",
                 "lrat.station_protected", "lrat.stations_1", "lrat.stations_2", "lrat.stations_4",
                 "lrat.terminus_throat")),
    Independent("CaDiCaL, MiniSat, PicoSAT", extra=("tests/solvers", "tests/fuzz_rup")),
    Independent("Python and JavaScript models of the events",
                ("pipelines.drives", "html.event_model.model", "html.event_model.after_use",
                 "simulate.model.model", "simulate.model.order",
                 "simulate.browser.browser_model")),
    Independent("`strict_check` and the certificate of `verify`", ("deviations.clean_tables",)),
)


def code(names: Iterable[str]) -> str:
    """Returns names in code font, in one line."""
    return ", ".join(f"`{name}`" for name in names)


def differences(page: str, tests: set[str], suites: set[str]) -> Iterator[str]:
    """Yields where the page and CHECKS differ, and each named test or suite that does not exist:
    `tests` are the names of all tests, `suites` the paths of the files of tests/."""
    found = rows(page, *HEAD)
    on_page, here = [cells[0] for cells in found], [one.check for one in CHECKS]
    if on_page != here:
        yield f"the page has the checks {on_page}, and agreement.py has {here}"
    of_page = {cells[0]: CODE.findall(cells[-1]) for cells in found}
    for one in CHECKS:
        if of_page.get(one.check, []) != [*one.tests, *one.extra]:
            yield (f"{one.check}: the page names {of_page.get(one.check, [])}, and agreement.py "
                   f"{[*one.tests, *one.extra]}")
        yield from (f"{one.check}: tests/run has no test {name}" for name in one.tests
                    if name not in tests)
        yield from (f"{one.check}: the file {name} does not exist" for name in one.extra
                    if name not in suites)


def counts_of(one: Independent, counts: dict[str, int], skipped: dict[str, str]) -> dict[str, int]:
    """Returns the tests of a check that passed, with their counts; refuses a log without a test that
    is named here."""
    for name in one.tests:
        if name not in counts and name not in skipped:
            raise Unread(f"the log has no result of the test {name}, which compares {one.check} "
                         "with the program: if it has another name now, write that into "
                         "irvtools/release/agreement.py and the qualification page")
    return {name: counts[name] for name in one.tests if name in counts}


def notes_of(one: Independent, skipped: dict[str, str], extra: list[str]) -> Iterator[str]:
    """Yields what the counts of a check leave out: `extra` are the rows of the extra logs."""
    yield from (f"- {one.check}: `{name}` was skipped: {skipped[name]}" for name in one.tests
                if name in skipped)
    if one.extra:
        logged = [name for name in one.extra if any(name in row for row in extra)]
        yield (f"- {one.check}: no test of CI compares it. {code(one.extra)} "
               f"{'do' if len(one.extra) > 1 else 'does'} so outside CI; "
               + (f"the extra logs have {code(logged)}." if logged else "no log of that was given."))


def section(subjects: dict[str, Tests], extra: list[str]) -> Iterator[str]:
    """Yields the lines of the record about the agreement of the independent checks."""
    counts = {name: count for tests in subjects.values() for name, count in tests.counts.items()}
    skipped = {name: why for tests in subjects.values() for name, why in tests.skipped.items()}
    yield from ("## Agreement of independent checks", "",
                "The checks are those of section 7 of qualification.md. A case is an input, or a "
                "query of one, on which the check and the program gave the same answer. CI counted "
                "the cases.", "",
                "| check | tests | cases that agree |", "|---|---|---|")
    for one in CHECKS:
        found = counts_of(one, counts, skipped)
        shown = ", ".join(f"`{name}` ({count})" for name, count in found.items())
        yield f"| {one.check} | {shown or 'none in CI'} | {sum(found.values())} |"
    yield ""
    notes = [note for one in CHECKS for note in notes_of(one, skipped, extra)]
    yield from ("Without a count:", "") if notes else ("Each test was run.",)
    yield from notes
