"""A fake program for answers that the real one never gives."""

import json
import stat
from pathlib import Path

FAKE = """#!/usr/bin/env python3
import json, sys, time
sys.stdin.buffer.read()
said = json.load(open(sys.argv[0] + ".json"))[sys.argv[1]]
if "writes" in said and "--cert" in sys.argv:
    open(sys.argv[sys.argv.index("--cert") + 1], "w").write(said["writes"])
time.sleep(said.get("sleeps", 0))
sys.stdout.write(said.get("says", ""))
sys.exit(said.get("status", 0))
"""


def program(directory, answers):
    """Writes a program that gives each command its answer, and returns its path. `writes` goes into
    the file of `--cert` before it sleeps."""
    file = Path(directory, "fake")
    file.write_text(FAKE, encoding="utf-8")
    file.chmod(file.stat().st_mode | stat.S_IXUSR)
    Path(f"{file}.json").write_text(json.dumps(answers), encoding="utf-8")
    return file
