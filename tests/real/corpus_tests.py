"""Tests over the corpus: import counts, clean tables, a second reader, SUMO's driveways, and
planted faults."""

import bz2
import copy
import json
import random
import re
import subprocess
import sys
import tempfile
from pathlib import Path
from unittest import SkipTest

from irvtools.calls.program import Program
from irvtools.model.plant import Plant
from irvtools.model.state import run_text
from irvtools.paths import TOOLS
from irvtools.search.random_search import RandomSearch
from irvtools.sumo import simulation
from tests.real.corpus import asked, counts, entries, imported, table_of
from tests.support.harness import test_case

SECONDS = 300
FAULTS, LONG_FAULTS = 8, 85
SEARCH_SECONDS = 120
SEED = 76
LEGS = {"plus": "minus", "minus": "plus"}


def check_imports(program, is_long):
    """Each file of the corpus gives the listed counts or message. Its table is clean."""
    found = entries(".", is_long)
    with tempfile.TemporaryDirectory(prefix="irv-real-") as room:
        for entry in found:
            name = f"{entry.name} {' '.join(entry.options)}"
            configuration, message = imported(program, entry, room)
            if configuration is None:
                if entry.is_plant or entry.expected not in message:
                    yield f"{name}: {message}, not {entry.expected}"
                continue
            have = counts(program, configuration)
            if have != entry.expected:
                yield f"{name}: {have}, not {entry.expected}"
            text, status = asked(program, "table", configuration)
            if status == 0 and asked(program, "check", json.loads(text))[0] != "clean\n":
                yield f"{name}: the table is not clean"


def check_loops(program, _):
    """A layout with a reversing loop is refused at its track, unless cut."""
    with tempfile.TemporaryDirectory(prefix="irv-real-") as room:
        for entry in entries(".xtc", True):
            if "--cut-loops" in entry.options:
                entry.options.remove("--cut-loops")
                configuration, message = imported(program, entry, room)
                if configuration is not None or not re.search(
                        r"track \d+: a reversing loop or a triangle", message):
                    yield f"{entry.name}: {message}"


def beyond(by_name, start, first):
    """Returns the point at the other end of the plain sections that begin at a point, or `end`."""
    before, name = start, first
    while by_name[name]["kind"] == "linear":
        one = by_name[name]
        before, name = name, one["up"] if one["down"] == before else one["down"]
        if name is None:
            return "end"
    return name


def joins_of(configuration):
    """Returns each point's far ends: over its stem, and over its legs without order."""
    by_name = {one["name"]: one for one in configuration["sections"]}
    return {name: (beyond(by_name, name, one["stem"]),
                   tuple(sorted(beyond(by_name, name, one[leg]) for leg in ("plus", "minus"))))
            for name, one in by_name.items() if one["kind"] == "point"}


def by_netconvert(program, entry, room):
    """Returns the configuration read from netconvert's network of a map."""
    text = bz2.decompress(entry.path.read_bytes()).decode("utf-8")
    Path(room, "map.osm").write_text(text, encoding="utf-8")
    simulation.call(["netconvert", "--osm-files", "map.osm", "-o", "map.net.xml",
                     "--keep-edges.by-vclass", "rail,rail_urban,rail_electric,tram",
                     "--railway.topology.all-bidi", "--no-turnarounds"], Path(room))
    out = Path(room, "net.json")
    done = subprocess.run([sys.executable, str(TOOLS / "import"), str(Path(room, "map.net.xml")),
                           "--out", str(out), "--program", str(program), "--signals", "rule"],
                          capture_output=True, text=True, timeout=SECONDS, check=False)
    if done.returncode:
        raise AssertionError(done.stderr)
    found = json.loads(out.read_text(encoding="utf-8"))
    out.unlink()
    Path(room, "net.notes.json").unlink()
    return found


def check_second_reader(program, is_long):
    """netconvert finds a map's same points, joined in the same way."""
    if simulation.missing():
        raise SkipTest(f"{simulation.missing()} is not installed (Debian's package sumo)")
    checked = 0
    with tempfile.TemporaryDirectory(prefix="irv-real-") as room:
        for entry in entries(".osm", is_long):
            if entry.options or not entry.is_plant:
                continue
            entry.options = ["--signals", "rule"]
            ours = joins_of(imported(program, entry, room)[0])
            theirs = joins_of(by_netconvert(program, entry, room))
            checked += len(ours)
            for name in sorted(set(ours) | set(theirs)):
                if ours.get(name) != theirs.get(name):
                    yield f"{entry.name}: {name}: {ours.get(name)}, and {theirs.get(name)}"
    if not checked:
        yield "no point is compared"


def check_driveways(program, is_long):
    """SUMO finds exactly the routes of each table, and agrees about conflicts. All trains arrive."""
    if simulation.missing():
        raise SkipTest(f"{simulation.missing()} is not installed (Debian's package sumo)")
    with tempfile.TemporaryDirectory(prefix="irv-real-") as room:
        for entry in entries(".", is_long):
            table = table_of(program, entry, room)
            if table is None:
                continue
            directory = tempfile.mkdtemp(dir=room)
            done = subprocess.run([sys.executable, str(TOOLS / "sumo"), directory, "--compare",
                                   "--program", str(program)], input=json.dumps(table).encode(),
                                  capture_output=True, timeout=SECONDS, check=False)
            count = len(table["routes"])
            wanted = (f"{count} routes, {count} driveways, {count} routes have a driveway of the "
                      f"same way", f"{count} of {count} trains arrive")
            lines = done.stdout.decode().splitlines()
            if done.returncode or any(line not in lines for line in wanted):
                yield f"{entry.name}: {lines[:6]} {done.stderr.decode()}"


def planted(tables, count):
    """Yields tables with one listed point of one route turned, and the route's number."""
    chance = random.Random(SEED)
    for _ in range(count):
        name = chance.choice(sorted(tables))
        table = copy.deepcopy(tables[name])
        number = chance.choice([n for n, one in enumerate(table["routes"]) if one["points"]])
        entry = chance.choice(table["routes"][number]["points"])
        entry["position"] = LEGS[entry["position"]]
        yield f"{name}: {table['routes'][number]['name']}, {entry['point']}", table, number


def check_planted(program, is_long):
    """`check` names one turned point of one route, and random search finds a hazard."""
    with tempfile.TemporaryDirectory(prefix="irv-real-") as room:
        tables = {}
        for entry in entries(".", is_long):
            table = table_of(program, entry, room)
            if table and any(one["points"] for one in table["routes"]):
                tables[f"{entry.name} {' '.join(entry.options)}"] = table
    for name, table, number in planted(tables, LONG_FAULTS if is_long else FAULTS):
        lines = asked(program, "check", table)[0].splitlines()
        if f"refused C3 routes[{number}]" not in lines:
            yield f"{name}: check answers {lines}"
        plant = Plant(table)
        run = RandomSearch(plant, SEED, [number]).for_hazard(SEARCH_SECONDS)
        if run is None:
            yield f"{name}: no hazard is found"
            continue
        given = json.dumps(table).encode()
        said = Program(program, given).replay("free", run_text(plant, run)).line
        if not said.startswith("hazard "):
            yield f"{name}: replay answers {said}"


CorpusTests = test_case("CorpusTests", [check_imports, check_loops, check_second_reader,
                                        check_driveways, check_planted])
