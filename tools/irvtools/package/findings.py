"""The meaning of a package's answers for the table."""

from __future__ import annotations

from pathlib import Path

from irvtools.calls.verdict import Answered, Verdict, deviations_sentence, verdict
from irvtools.package.deviations import Deviation, deviations_of
from irvtools.package.recorded_calls import CONFIGURATION, Call

GOOD, UNSAFE, NOT_INDUCTIVE, BREACH = 0, 1, 2, 3
RUN_FROM_START = "run 1\nstart\n"


class Findings:
    """Findings from the calls and package files."""

    def __init__(self, room: Path, calls: list[Call]):
        self.room, self.calls = room, calls

    def call(self, name: str) -> Call | None:
        """Returns the call with this name, or `None` if it was not made."""
        return next((call for call in self.calls if call.name == name), None)

    # -- rules

    @property
    def refusals(self) -> list[str]:
        """Returns the lines of the broken rules."""
        return [line for line in self.call("check-strict").output.splitlines()
                if line.startswith("refused ")]

    @property
    def is_clean(self) -> bool:
        """Returns whether no rule is broken with strict columns."""
        return self.call("check-strict").status == GOOD

    @property
    def is_plant(self) -> bool:
        """Returns whether the configuration has a plant: only column rules are broken, or none."""
        lines = self.refusals
        return self.is_clean or bool(lines) and all(line.split()[1][0] == "C" for line in lines)

    @property
    def columns(self) -> str:
        """Returns the columns of all calls but the first."""
        return "strict" if self.is_clean else "free"

    @property
    def deviations(self) -> list[Deviation]:
        """Returns the broken rules with their meaning."""
        return deviations_of((self.room / CONFIGURATION).read_bytes(), self.refusals)

    # -- verdict

    @property
    def verdict(self) -> Call | None:
        """Returns verify's answer."""
        return self.call("verify")

    @property
    def is_safe(self) -> bool:
        """Returns whether verify answered that the table is safe."""
        return self.verdict is not None and self.verdict.status == GOOD and not self.verdict.fault

    @property
    def is_safe_with_deviations(self) -> bool:
        """Returns whether the table is safe despite broken rules: a clause of the program's
        contract."""
        return deviations_sentence(self.answered(self.call("check-strict"))) is not None

    @property
    def has_run(self) -> bool:
        """Returns whether verify answered with a run."""
        return self.verdict.status in (UNSAFE, NOT_INDUCTIVE, BREACH) and not self.verdict.fault

    @property
    def hazard(self) -> str | None:
        """Returns the first answer that a run from the initial state ends in a hazard, with the
        run's file."""
        for call in self.calls:
            is_of_run = call.is_of_program and call.words[1] in ("replay", "drive")
            if is_of_run and call.line.startswith("hazard "):
                file = call.words[call.words.index("--run") + 1]
                if call.words[1] == "drive" or self.text(file).startswith(RUN_FROM_START):
                    return f"{call.line}, by {file}"
        return None

    def text(self, file: str) -> str:
        """Returns the text of a package file."""
        return (self.room / file).read_bytes().decode(errors="replace")

    @property
    def contradictions(self) -> list[str]:
        """Returns answers that cannot both be right. Then the program, a tool or the machine is
        wrong."""
        if not self.is_plant:
            return []
        safe = self.verdict.line if self.is_safe else "clean" if self.is_clean else \
            "only deviations with which a table is safe" if self.is_safe_with_deviations else None
        found = [f"{safe}, and {self.hazard}"] if safe and self.hazard else []
        if self.is_safe:
            accepted = {"audit": f"accepted {self.verdict.line[5:]}", "audit-outside": "accepted: "}
            found += [f"{safe}, and {name}: {self.call(name).told}"
                      for name, line in accepted.items()
                      if not self.call(name).line.startswith(line)]
            if self.call("lrat").status:
                found.append(f"{safe}, and lrat: {self.call('lrat').last}")
            found += [f"{call.name} was refuted before, and now: {call.told}" for call in self.calls
                      if call.name.startswith("rup-") and not call.line.startswith("refuted ")]
        return found

    def verdict_of_all(self, is_proved: bool) -> Verdict:
        """Returns the verdict's word and sentence; `is_proved` is whether the program is known to
        be proved."""
        answers = [self.answered(call) for call in self.calls if call.is_of_program]
        return verdict(answers, is_proved)

    def answered(self, call: Call) -> Answered:
        """Returns a call in the form for a verdict. A call without an answer counts as unfinished."""
        columns = call.words[call.words.index("--columns") + 1]
        has_run = call.words[1] == "replay"
        run = self.text(call.words[call.words.index("--run") + 1]) if has_run else ""
        return Answered(call.words[1], columns, None if call.fault else call.status, call.output,
                        not call.fault, run)

    @property
    def said(self) -> str:
        """Returns the result in one line."""
        if not self.is_plant:
            return f"not a plant: {self.call('check-strict').line}"
        under = "" if self.is_clean else "with deviations, under free columns: "
        if self.contradictions:
            return f"{under}a contradiction: {'; '.join(self.contradictions)}"
        if self.is_safe:
            return under + self.verdict.line
        if self.hazard:
            return f"{under}not safe: {self.hazard}"
        if self.is_clean:
            return f"clean, and so safe, without a certificate: {self.verdict.told}"
        if self.is_safe_with_deviations:
            return ("with deviations, and safe with them, without a certificate: "
                    f"{self.verdict.told}")
        return f"{under}not shown to be safe: {self.verdict.told}"
