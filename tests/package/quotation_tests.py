"""Tests of quotations in packages: assumptions, application conditions and facts about the program."""

import os
import tempfile
from pathlib import Path

from irvtools.calls import provenance
from irvtools.package.program_version import PROVED, UNKNOWN, note_beside
from irvtools.package.single_file import script
from irvtools.package.source_checksums import sha256
from tests.support.harness import Test, test_case

DOCUMENT = """# A page

### AS-01: configuration

- Statement: The `sections` are **those** of the [railway](there.md).
- Ensured by: the author.

### SRAC-01: closed boards

The train operator shall ensure
that each train stops.

- Duty holder: train operator
- Discharged by: train protection.

## Next

### FM-01: another

- Duty holder: nobody
"""


def check_items(_, __):
    """Each item of the page, and no other entry, is read with its statement and lines."""
    found = provenance.items_in(DOCUMENT)
    wanted = [("AS-01", "configuration", "The sections are those of the railway.", "the author."),
              ("SRAC-01", "closed boards", "The train operator shall ensure that each train stops.", None)]
    if [(it.name, it.title, it.statement, it.lines.get("Ensured by")) for it in found] != wanted:
        yield f"{found}"
    if found and found[-1].lines != {"Duty holder": "train operator",
                                     "Discharged by": "train protection."}:
        yield f"{found[-1]}"


def check_page(_, __):
    """Each assumption and condition of the real page has a statement. Each condition says `shall`,
    and has a duty holder and a discharge. Without a page there are none."""
    assumptions, conditions = provenance.items("AS"), provenance.items("SRAC")
    if len(assumptions) < 9 or len(conditions) < 18:
        yield f"{len(assumptions)} assumptions, {len(conditions)} conditions"
    yield from (f"{it.name} has no statement" for it in assumptions if not it.statement)
    yield from (f"{it.name}: {it}" for it in conditions
                if " shall " not in it.statement or not {"Duty holder", "Discharged by"} <= set(it.lines))
    if provenance.items("AS", Path("/nowhere")):
        yield "a page that does not exist has assumptions"


def check_version_file(_, __):
    """A package's report takes the program's proof, commit and toolchain from its version file."""
    lines = "commit c\ntoolchain kit 1\nsources s\nprogram sha256 p\n"
    with tempfile.TemporaryDirectory(prefix="irv-test-package-") as room:
        file = Path(room, "version.txt")
        os.environ[provenance.VERSION_FILE] = str(file)
        try:
            file.write_text(f"{lines}{PROVED}\n")
            note = note_beside(Path(room, "irv"))
            if note != {"sources": "s", "program": "p", "toolchain": "kit 1"}:
                yield f"{note}"
            if (provenance.sources(), provenance.toolchain()) != ("c", "kit 1"):
                yield f"{provenance.sources()}, {provenance.toolchain()}"
            file.write_text(f"{lines}{UNKNOWN}\n")
            if note_beside(Path(room, "irv")):
                yield "a program that is not known to be proved has a note"
        finally:
            del os.environ[provenance.VERSION_FILE]


def check_checksum_of_judge(_, __):
    """The qualification page has the checksum of verify_package.py, the judge in a release."""
    total = sha256(script().encode())
    if total not in provenance.QUALIFICATION.read_text(encoding="utf-8"):
        yield f"write into docs/assurance/qualification.md that verify_package.py has the checksum {total}"


QuotationTests = test_case("QuotationTests", (
    check_items, check_page, check_version_file, check_checksum_of_judge,
), Test)
