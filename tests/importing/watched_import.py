"""Imports a file in a process that records what it opens, its CPU seconds and its peak memory.

    PYTHONPATH=tools python3 watched_import.py RESULT ARGUMENTS..
"""

import json
import re
import sys
import time
from pathlib import Path

OPENED, OTHER = set(), set()


def watch(event, arguments):
    """Records opened files, called programs and network access."""
    if event == "open" and isinstance(arguments[0], (str, bytes)):
        OPENED.add(arguments[0] if isinstance(arguments[0], str) else arguments[0].decode())
    elif event == "subprocess.Popen":
        OTHER.add(f"calls {arguments[0]}")
    elif event.startswith(("socket.", "urllib.", "ctypes.", "ftplib.", "http.")):
        OTHER.add(event)


def main(result, words):
    """Imports, and writes the record."""
    from irvtools.importing import cli
    begin = time.process_time()
    sys.addaudithook(watch)
    status = cli.main(words)
    seen = {"status": status, "seconds": time.process_time() - begin, "opened": sorted(OPENED),
            "other": sorted(OTHER)}
    peak = re.search(r"VmHWM:\s*(\d+) kB", Path("/proc/self/status").read_text(encoding="utf-8"))
    seen["mebibytes"] = int(peak[1]) / 1024
    Path(result).write_text(json.dumps(seen), encoding="utf-8")


if __name__ == "__main__":
    main(sys.argv[1], sys.argv[2:])
