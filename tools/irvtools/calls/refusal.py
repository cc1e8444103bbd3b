"""Refusals of the tools, and their texts."""

from __future__ import annotations

SHOWN = 40              # characters of a quoted text
TOLD = 20               # faults that are listed


class Refused(Exception):
    """A refusal, with a sentence for each fault, in input order."""

    def __init__(self, *faults):
        super().__init__(*faults)
        self.faults = list(faults)

    def lines(self):
        """Returns the sentences to print."""
        more = len(self.faults) - TOLD
        return self.faults[:TOLD] + ([f"and {more} more"] if more > 0 else [])


def shown(text: str) -> str:
    """Returns a text as one line in quotation marks, cut to length."""
    line = "".join(one if one.isprintable() else "�" for one in text)
    return f"“{line if len(line) <= SHOWN else line[:SHOWN] + '…'}”"


def reason(fault: OSError) -> str:
    """Returns the system's reason for a failed read or write."""
    return fault.strerror or str(fault)
