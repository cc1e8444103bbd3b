"""Packs verify_package.py and the modules that it imports into one file for a release."""

from __future__ import annotations

import re
from pathlib import Path

HERE = Path(__file__).parent
MODULES = ("source_checksums.py", "page_links.py", "package_parts.py", "verify_package.py")
IMPORT = re.compile(r"^(?:import|from) (?:.*\(\n(?:    .*\n)*\)|.*)\n", re.M)
DOCSTRING = re.compile(r'\A"""(.*?)"""\n', re.S)


def script() -> str:
    """Returns the file's text."""
    texts = [(HERE / name).read_text(encoding="utf-8") for name in MODULES]
    imports = {line for text in texts for line in IMPORT.findall(text) if "irvtools" not in line}
    bodies = [IMPORT.sub("", DOCSTRING.sub("", text)).strip() for text in texts]
    docstring = DOCSTRING.match(texts[-1])[0]
    head = "".join(sorted(imports, key=lambda line: (line.startswith("from"), line)))
    return f"#!/usr/bin/env python3\n{docstring}\n{head}\n\n" + "\n\n\n".join(bodies) + "\n"
