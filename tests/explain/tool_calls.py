"""Calls of `tools/explain` as a script."""

import subprocess
import tempfile
from pathlib import Path

from irvtools.paths import TOP

TOOL = TOP / "tools/explain"


def run(program, words, given, room="."):
    """Calls the tool."""
    return subprocess.run([TOOL, "--program", program, *words], input=given, cwd=room, capture_output=True,
                          check=False)


def told(program, words, given, files):
    """Returns the tool's standard error before the verdict, over files in its directory."""
    with tempfile.TemporaryDirectory(prefix="irv-explain-") as room:
        for name, text in files.items():
            Path(room, name).write_text(text, encoding="utf-8")
        said = run(program, words, given, room).stderr.decode()
        return "".join(line for line in said.splitlines(keepends=True) if not line.startswith("irv: verdict: "))
