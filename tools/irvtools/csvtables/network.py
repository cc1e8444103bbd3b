"""A network's own table, made by the program's `table`."""

from __future__ import annotations

from typing import Any

from irvtools.csvtables import configurations
from irvtools.calls.program import Program
from irvtools.calls.refusal import Refused

SECONDS = 60


def own_table(program: str, value: dict[str, Any]) -> dict[str, Any]:
    """Returns the configuration that `irv table` prints for a configuration's network."""
    given = configurations.written({**value, "routes": []}).encode()
    answer = Program(program, given).ask(["table", "--columns", "free"], SECONDS)
    if answer.status != 0:
        raise Refused(f"the network has no table of its own: irv table: {answer.said}")
    return configurations.read(answer.output.encode(), "what irv table prints")
