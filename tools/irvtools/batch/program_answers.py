"""The program's answers: the first lines for each status, and the good ones.

A status without its line is not an answer: it may come from a signal, a shell or a full machine.
"""

from __future__ import annotations

import re
import signal


from irvtools.calls.first_lines import HAZARD, NUMBER, STATUS_OF, VERDICT, kind_of

REFUSED = 5
REFUSAL = r"refused [A-Z][0-9] (?:document|extra|[a-z]+\[[0-9]+\](?: routes\[[0-9]+\])?)"
# First line by status, for each command but verify.
LINES = {
    "check": {0: "clean"},
    "audit": {0: f"accepted k={NUMBER}", 6: f"rejected line {NUMBER}"},
    "drive": {0: f"driven steps={NUMBER}", 1: f"hazard {HAZARD} steps={NUMBER}",
              6: f"stuck at {NUMBER} steps={NUMBER}|rejected line {NUMBER}"},
    "replay": {0: f"hazard {HAZARD}",
               6: f"no hazard|not a run at {NUMBER}|rejected line {NUMBER}"},
    "export": {0: r"p cnf [0-9]+ [0-9]+"},
    "rup": {0: f"refuted (?:hazard|breach|step) {NUMBER}", 6: f"rejected item {NUMBER}"},
}
FAULTS = {7: "usage", 8: "a read fault", 9: "a write fault", 10: "out of memory"}


class NoAnswer(Exception):
    """No answer came. The message says why."""


def signal_name(number):
    """Returns a signal's name."""
    try:
        return signal.Signals(number).name
    except ValueError:
        return f"signal {number}"


def is_answer(command, status, line):
    """Returns whether the program has this line with this status."""
    if status == REFUSED:
        return re.fullmatch(REFUSAL, line) is not None
    if command == "verify":
        return VERDICT.fullmatch(line) is not None and STATUS_OF[kind_of(line)] == status
    pattern = LINES[command].get(status)
    return pattern is not None and re.fullmatch(pattern, line) is not None


def why_no_answer(command: str, status: int, line: str, complaint: str) -> str | None:
    """Returns why status, line and error message are not a valid answer of the program, or `None`
    if they are."""
    if is_answer(command, status, line):
        return None
    if status < 0 or status > 128:
        name = signal_name(-status if status < 0 else status - 128)
        return f"irv {command} was ended by {name}" + (
            ", which happens if the machine has no memory left" if "KILL" in name else "")
    said = f": {complaint}" if complaint else ""
    return f"irv {command} ended with {FAULTS.get(status, f'status {status} and no answer')}{said}"
