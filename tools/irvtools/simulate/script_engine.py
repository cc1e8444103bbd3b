"""Runs the simulator's model in a script engine outside of a browser, if one is installed."""

from __future__ import annotations

import json
import shutil
import subprocess
import tempfile
from pathlib import Path

from irvtools.simulate import scripts

NAMES = ("node", "nodejs")
SECONDS = 600


def find() -> str | None:
    """Returns the engine, or `None`."""
    return next((path for path in map(shutil.which, NAMES) if path), None)


def as_text(text: str) -> str:
    """Returns a text as a script literal."""
    return json.dumps(text)


class Engine:
    """An engine for the model of one plant; `more` is further script."""

    def __init__(self, file, plant, more=""):
        self.file = file
        self.source = (f"{scripts.script(scripts.MODEL)}\n{more}\n"
                       f"const plant = new Plant({scripts.as_json(scripts.plant_value(plant))});\n")

    def ask(self, expression):
        """Returns the value of an expression over `plant`."""
        with tempfile.TemporaryDirectory(prefix="irv-engine-") as room:
            file = Path(room, "model.js")
            file.write_text(f"{self.source}console.log(JSON.stringify({expression}));\n",
                            encoding="utf-8")
            done = subprocess.run([self.file, str(file)], capture_output=True, text=True,
                                  timeout=SECONDS, check=False)
        if done.returncode:
            raise RuntimeError(f"{self.file}: {done.stderr}")
        return json.loads(done.stdout)
