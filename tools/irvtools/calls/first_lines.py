"""First lines and exit statuses of answers without known bytes."""

from __future__ import annotations

import re

NUMBER = "(?:0|[1-9][0-9]*)"
HAZARD = "(?:two|wrong) [A-Za-z0-9_-]{1,32}"
STATIONS = rf"stations={NUMBER} sections={NUMBER} routes={NUMBER} "
VERDICT = re.compile(rf"(?:{STATIONS})?(?:safe k=(?:[1-9]|1[0-6])|unsafe steps={NUMBER} hazard={HAZARD}"
                     rf"|not inductive steps={NUMBER}|breach steps={NUMBER} family=V[1-9]"
                     rf"|spent conflicts={NUMBER})")
STATUS_OF = {"safe": 0, "unsafe": 1, "not": 2, "breach": 3, "spent": 4}


def judgement(line: str) -> str:
    """Returns a verdict without demo's prefix."""
    return re.sub(f"^{STATIONS}", "", line)


def kind_of(verdict: str) -> str:
    """Returns the first word of a verdict."""
    return judgement(verdict).split(" ")[0]
