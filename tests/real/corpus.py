"""The files of the corpus, and the plants made from them.

`corpus.list` has a tab-separated line per import: the file's name, the first 12 digits of its
SHA-256, the options, and either the counts or a part of the message. The counts were recorded when
the list was written. Missing files and those of another version are skipped.
"""

import hashlib
import json
import os
import subprocess
import sys
from pathlib import Path
from unittest import SkipTest

from irvtools.paths import TOOLS, TOP

LAYOUTS = Path("/usr/share/xtrkcad/examples")
MAPS = Path(os.environ.get("IRV_MAPS", TOP / "out/maps"))
SECONDS = 120
SMALL_BYTES, SMALL_ROUTES = 1 << 20, 50
COUNTS = ("sections", "points", "boards", "routes")


class Entry:
    """A line of the list: a file, its import options, and its expected result."""

    def __init__(self, line):
        self.name, self.checksum, options, self.expected = line.split("\t")
        self.options = options.split()
        self.path = (LAYOUTS if self.name.endswith(".xtc") else MAPS) / self.name

    @property
    def is_there(self):
        """Returns whether the file exists with the listed contents."""
        return self.path.is_file() and self.checksum == \
            hashlib.sha256(self.path.read_bytes()).hexdigest()[:12]

    @property
    def is_small(self):
        """Returns whether the file is read in about two seconds and has few routes."""
        routes = self.expected.rpartition(", ")[2].partition(" ")[0]
        return self.path.stat().st_size < SMALL_BYTES and \
            not (self.is_plant and (not routes.isdigit() or int(routes) > SMALL_ROUTES))

    @property
    def is_plant(self):
        """Returns whether the file should be imported."""
        return self.expected[0].isdigit()


def entries(suffix, is_long, least=1):
    """Returns the lines of existing files with a suffix; only small ones unless `is_long`. Skips
    the test if too few exist."""
    found = [Entry(line) for line in Path(__file__).with_name("corpus.list").read_text(
        encoding="utf-8").splitlines() if line and not line.startswith("#")]
    wanted = [one for one in found if suffix in one.name]
    there = [one for one in wanted if one.is_there and (is_long or one.is_small)]
    if len(there) < least:
        raise SkipTest(f"{len(there)} of {len(wanted)} files are there: Debian's package "
                       f"xtrkcad-common has the layouts, and tests/fetch_maps fetches the maps to "
                       f"{MAPS}")
    return there


def imported(program, entry, room):
    """Imports a file. Returns the configuration and an empty message, or `None` and the message."""
    out = Path(room, "plant.json")
    done = subprocess.run([sys.executable, str(TOOLS / "import"), str(entry.path), "--out",
                           str(out), "--program", str(program), *entry.options],
                          capture_output=True, text=True, timeout=SECONDS, check=False)
    if done.returncode:
        return None, done.stderr.strip()
    found = json.loads(out.read_text(encoding="utf-8"))
    out.unlink()
    Path(room, "plant.notes.json").unlink()
    return found, ""


def asked(program, command, configuration, *words):
    """Returns the program's answer and its status."""
    done = subprocess.run([str(program), command, *words], input=json.dumps(configuration).encode(),
                          capture_output=True, timeout=SECONDS, check=False)
    return done.stdout.decode(), done.returncode


def table_of(program, entry, room):
    """Returns the table of a file's network, or `None`."""
    configuration, _ = imported(program, entry, room)
    if configuration is None:
        return None
    text, status = asked(program, "table", configuration)
    return json.loads(text) if status == 0 else None


def counts(program, configuration):
    """Returns the counts of an import as in the list."""
    sections = configuration["sections"]
    points = sum(one["kind"] == "point" for one in sections)
    boards = sum(bool(one.get(f"board_{side}")) for one in sections for side in ("down", "up"))
    text, status = asked(program, "table", configuration)
    routes = len(json.loads(text)["routes"]) if status == 0 else text.strip()
    return ", ".join(f"{count} {what}" for count, what in
                     zip((len(sections), points, boards, routes), COUNTS))
