"""Writes ten tables of the corpus as files, to measure `verify`."""

import json
import sys
import tempfile
from pathlib import Path
from unittest import SkipTest

from irvtools.arguments import Parser
from irvtools.paths import TOP
from tests.real.corpus import entries, table_of

DIRECTORY = TOP / "out/tables"
# each table's name: a file and its import options, from sparse to dense
TABLES = {"rhine-line": ("josm-18863.osm.bz2", []), "liechtenstein": ("liechtenstein.osm.bz2", []),
          "overpass": ("overpass-download.osm.bz2", []), "stonega": ("stonega.xtc", []),
          "katoxing": ("katoxing.xtc", ["--cut-loops"]),
          "laurel": ("laurel_hon3.xtc", ["--cut-loops"]), "spagw1": ("spagw1.xtc", ["--cut-loops"]),
          "ovals": ("3oval1circle_mrklnhomde_v1_2013_03.xtc", []),
          "double-oval": ("2oval8_mrklnhomde_v1_2013_03.xtc", ["--cut-loops"]),
          "neubrandenburg": ("neubrandenburg.osm.bz2", ["--near", "53.56,13.261,700"])}


def main(words):
    """Writes the tables. Returns the exit status."""
    line = Parser("tests/write_tables", "Writes ten tables of the corpus of tests/real, for "
                  "tools/benchmark and tools/update_performance.", 2,
                  "tests/write_tables [DIRECTORY] [--program FILE]")
    line.add_argument("directory", nargs="?", type=Path, default=DIRECTORY, metavar="DIRECTORY",
                      help="where the tables are written (out/tables)")
    line.program()
    given = line.parse_args(words)
    try:
        found = entries(".", True)
    except SkipTest as fault:
        print(f"tests/write_tables: {fault}", file=sys.stderr)
        return 1
    given.directory.mkdir(parents=True, exist_ok=True)
    missing = []
    with tempfile.TemporaryDirectory(prefix="irv-real-") as room:
        for name, wanted in TABLES.items():
            entry = next((one for one in found if (one.name, one.options) == wanted), None)
            table = entry and table_of(given.program, entry, room)
            if table:
                (given.directory / f"{name}.json").write_text(json.dumps(table), encoding="utf-8")
            else:
                missing.append(name)
    print(f"{given.directory}: {len(TABLES) - len(missing)} of {len(TABLES)} tables"
          + "".join(f"; {name} is missing" for name in missing))
    return 1 if missing else 0
