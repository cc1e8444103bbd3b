"""Tests of docs/assurance/traceability.md and of the definitions for assessors.

Each assumption, application condition, failure mode, requirement, command, exit status and tool has
existing evidence. Wrong sources are found, each by its own fault.
"""

import re
import tempfile
from pathlib import Path

from irvtools.docs import definition_pages, traceability
from irvtools.docs.evidence import DATA
from irvtools.docs.qualification import PAGE as QUALIFICATION
from irvtools.docs.requirements import FORMATS, MODEL
from irvtools.paths import TOP
from tests.support.harness import Test

# changes of a source: file, old and new text, and a part of the fault
CHANGES = {
    "a failure mode without evidence": (
        QUALIFICATION,
        r"(### FM-07: (?:.|\n)*?)\n- Evidence:.*",
        r"\1",
        "Failure modes, FM-07: no tests",
    ),
    "an application condition without evidence": (
        QUALIFICATION,
        r"(### SRAC-06: (?:.|\n)*?\n- Evidence: by the user\.).*",
        r"\1",
        "Application conditions, SRAC-06: no evidence",
    ),
    "an assumption without evidence": (
        QUALIFICATION,
        r"(### AS-09: (?:.|\n)*?)\n- Evidence:.*",
        r"\1",
        "Assumptions, AS-09: no tests",
    ),
    "a condition without shall": (
        QUALIFICATION,
        r"The railway operator shall check that",
        "The railway operator checks that",
        "SRAC-18: no sentence with shall",
    ),
    "a condition without a duty holder": (
        QUALIFICATION,
        r"(### SRAC-06: (?:.|\n)*?)\n- Duty holder:.*",
        r"\1",
        "SRAC-06: no duty holder",
    ),
    "a number that is left out": (
        QUALIFICATION,
        r"^### FM-05:",
        "### FM-50:",
        "FM-50 is out of order",
    ),
    "a mutant that does not exist": (
        QUALIFICATION,
        r"must-fail/safe_at_the_depth\.edit",
        "must-fail/safe_at_the_dept.edit",
        "safe_at_the_dept.edit does not exist",
    ),
    "a definition that is not in its file": (
        QUALIFICATION,
        r"\[`may_pass_board`\]",
        "[`may_stop`]",
        "Trains.antt does not declare may_stop",
    ),
    "a test that does not exist": (
        QUALIFICATION,
        r"`tests/run csv`",
        "`tests/run sheets`",
        "there is no test sheets",
    ),
    "a condition that is cited and does not exist": (
        QUALIFICATION,
        r"checkout \(SRAC-21\)",
        "checkout (SRAC-99)",
        "cites SRAC-99, which does not exist",
    ),
    "a requirement without a test": (
        DATA,
        r"^(N4 \| .* \| .* \| )network\.cases",
        r"\1-",
        "Network rules, N4: no tests",
    ),
    "a requirement whose contract was renamed": (
        DATA,
        r"^(N4 \| .*):check_network",
        r"\1:check_networks",
        "does not declare check_networks",
    ),
    "a command left out": (DATA, r"^demo \|.*\n", "", "Commands: demo has no line"),
    "an exit status left out": (DATA, r"^4 Spent \|.*\n", "", "Exit statuses: 4 Spent has no line"),
    "a tool left out": (DATA, r"^csv \|.*\n", "", "Tools: csv has no line"),
    "a tool that does not exist": (DATA, r"^csv \|", "sheet |", "Tools: sheet does not exist"),
    "a requirement without a line": (
        DATA,
        r"^N4 \|.*\n",
        "",
        "N4 is a requirement and has no line",
    ),
    "a new requirement": (
        MODEL,
        r"^(\| V1 )(\|.*\n)",
        r"\1\2| V10 \2",
        "V10 is a requirement and has no line",
    ),
    "a new limit": (
        FORMATS,
        r"^(\| routes \| .*\n)",
        r"\1| trains | 9 | F6 |\n",
        "trains is a requirement and has no line",
    ),
    "a requirement with another definition": (
        DATA,
        r"^(N2 \| ilk_plant/specs/Draft\.antt:)repeats_earlier_name",
        r"\1numbered",
        "N2: the model has other definitions",
    ),
    "a test that does not name its requirement": (
        DATA,
        r"^(R3 \| .* \| )routes\.cases",
        r"\1words.cases",
        "words.cases does not say R3",
    ),
    "a requirement that is listed twice": (
        DATA,
        r"^(N4 \|.*\n)",
        r"\1\1",
        "Network rules, N4: listed twice",
    ),
}


def faults_after(change):
    """Returns the faults of a copy of the sources with one change, or of no change."""
    file, pattern, replacement, _ = change
    with tempfile.TemporaryDirectory(prefix="irv-traceability-") as folder:
        root = Path(folder)
        for name in ("crates", "tests"):
            (root / name).symlink_to(TOP / name)
        for path in (
            *TOP.glob("tools/*"),
            *(TOP / page for page in (DATA, QUALIFICATION, MODEL, FORMATS)),
        ):
            if path.is_file():
                copy = root / path.relative_to(TOP)
                copy.parent.mkdir(parents=True, exist_ok=True)
                copy.write_bytes(path.read_bytes())
                copy.chmod(path.stat().st_mode)
        text = (root / file).read_text(encoding="utf-8")
        changed = re.sub(pattern, replacement, text, count=1, flags=re.M)
        (root / file).write_text(changed, encoding="utf-8")
        return traceability.faults(root) if changed != text else ["nothing was changed"]


class TraceabilityTests(Test):
    """Tests of the page, its sources, and the pages of definitions."""

    def test_evidence(self):
        """Each line has existing evidence, and the page is as generated."""
        self.see(traceability.faults() + traceability.differences())

    def test_definitions(self):
        """The list of definitions and the reading plan are as generated."""
        self.see(definition_pages.differences())

    def test_wrong_sources(self):
        """Each wrong source is found by its own fault, which the present ones do not have."""
        before, wrong = traceability.faults(), []
        for name, change in CHANGES.items():
            found = [fault for fault in faults_after(change) if fault not in before]
            if not any(change[-1] in fault for fault in found):
                wrong.append(f"{name}: {found}")
        self.see(wrong, len(CHANGES))
