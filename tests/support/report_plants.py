"""The plants of the page's tests."""

import json
from pathlib import Path

from irvtools.generators import configurations
from tests.support import fifteen_section_line

EXAMPLES = sorted((Path(__file__).resolve().parents[2] / "examples").glob("*.json"))


def plants():
    """Returns named plants as bytes."""
    found = {path.stem: path.read_bytes() for path in EXAMPLES}
    found["line"] = json.dumps(fifteen_section_line.right()).encode()
    found.update({name: json.dumps(fifteen_section_line.with_fault(name)).encode() for name in fifteen_section_line.FAULTS})
    found["stations 3"] = configurations.made("stations", "3")
    return found
