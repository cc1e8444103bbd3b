"""A configuration as the CSV tools read and write it: the value of its JSON, in the form of F2 to
F5. F6's counts are checked only for a comparison; all other rules are for `irv check`.
"""

from __future__ import annotations

import json
from typing import Any

from irvtools.rules import schema_rules
from irvtools.rules.schema_rules import LINEAR, MOST_BYTES, POINT, route_members
from irvtools.calls.refusal import Refused, reason
from irvtools.csvtables import spreadsheets


def read(given: bytes, name: str) -> dict[str, Any]:
    """Returns the configuration of some bytes; a rejection calls them `name`."""
    if len(given) > MOST_BYTES:
        raise Refused(f"{name}: there are more than {MOST_BYTES} bytes, which a configuration may have")
    value, unread = schema_rules.read(given)
    refuse([unread] if unread else list(form_faults(given, value)), name)
    return value


def form_faults(given, value):
    """Returns violations of F3 to F5."""
    faults = list(schema_rules.document_faults("F3", given, value))
    if not faults and value["version"] not in (1, 2):
        faults = list(schema_rules.document_faults("F4", given, value))
    if faults:
        yield from faults
        return
    for list_ in ("sections", "routes"):
        for number in range(len(value[list_])):
            place = f"{list_}[{number}]"
            yield from (list(schema_rules.entry_faults("F3", value, place))
                        or schema_rules.entry_faults("F5", value, place))


def see_counts(value: dict[str, Any], name: str) -> None:
    """Rejects a configuration that breaks F6."""
    faults = [*schema_rules.document_faults("F6", None, value)]
    for list_ in ("sections", "routes"):
        for number in range(len(value[list_])):
            faults += schema_rules.entry_faults("F6", value, f"{list_}[{number}]")
    refuse(faults, name)


def refuse(faults, name):
    """Raises a rejection if there are faults, each a sentence."""
    if faults:
        raise Refused(*(f"{name}: {fault[0].lower()}{fault[1:].removesuffix('.')}" for fault in faults))


def read_bytes(path: str) -> bytes:
    """Returns the bytes of a file, or only the first ones if it is too long."""
    try:
        with open(path, "rb") as file:
            given = file.read(MOST_BYTES + 1)
    except OSError as fault:
        raise Refused(f"{path}: it can't be read: {reason(fault)}") from None
    spreadsheets.refuse_file(path, given)
    return given


def read_text(path: str, what: str) -> str:
    """Returns the text of a file; a rejection of a long file calls it `what`."""
    given = read_bytes(path)
    if len(given) > MOST_BYTES:
        raise Refused(f"{path}: there are more than {MOST_BYTES} bytes, which {what} may have")
    try:
        return given.decode()
    except UnicodeDecodeError as fault:
        line = given.count(b"\n", 0, fault.start) + 1
        raise Refused(f"{path}, line {line}: the encoding isn't UTF-8, which was expected") from None


def members_of(entry, version):
    """Returns the members of a section or a route, in order."""
    if "kind" in entry:
        return POINT if entry["kind"] == "point" else LINEAR
    return route_members(version)


def written(value: dict[str, Any]) -> str:
    """Returns the text of a configuration, with a line for each section and route."""
    lists = ",\n".join(list_text(list_, value) for list_ in ("sections", "routes"))
    text = f'{{"version": {value["version"]},\n{lists}}}\n'
    if len(text) > MOST_BYTES:
        raise Refused(f"the configuration would have {len(text)} bytes, and may have {MOST_BYTES}")
    return text


def list_text(list_, value):
    """Returns the lines of its sections or routes."""
    lines = [json.dumps({member: entry[member] for member in members_of(entry, value["version"])})
             for entry in value[list_]]
    return f' "{list_}": [' + ",".join(f"\n  {line}" for line in lines) + "]"
