"""Tests of the export to SUMO and of its comparison: planted faults are named."""

import json
import os
import subprocess
import sys
import tempfile
from pathlib import Path
from unittest import SkipTest

from irvtools.generators.configurations import document, linear, point
from irvtools.paths import TOOLS, TOP
from irvtools.sumo import simulation
from irvtools.sumo.net_files import NetFiles
from irvtools.sumo.ways import Network
from tests.support.harness import test_case

SECONDS = 300
EXAMPLES = TOP / "examples"


def need_sumo():
    """Skips the test if SUMO is not installed."""
    absent = simulation.missing()
    if absent:
        raise SkipTest(f"{absent} is not installed (Debian's package sumo)")


def answer(program, given, *words):
    """Returns the program's output for a configuration."""
    done = subprocess.run([str(program), *words], input=given, capture_output=True, timeout=SECONDS,
                          check=True)
    return done.stdout


def tables(program):
    """Returns three tables by name: of two example networks and a generated line."""
    given = {name: (EXAMPLES / f"{name}.json").read_bytes()
             for name in ("station-without-routes", "terminus-throat")}
    given["two stations"] = answer(program, b"", "make", "--stations", "2")
    return {name: json.loads(answer(program, text, "table")) for name, text in given.items()}


def exported(program, room, configuration, *words):
    """Exports a configuration to a new directory. Returns the status, the output and the errors."""
    directory = tempfile.mkdtemp(dir=room)
    done = subprocess.run([sys.executable, str(TOOLS / "sumo"), directory, "--program",
                           str(program), *words], input=json.dumps(configuration).encode(),
                          capture_output=True, timeout=SECONDS, check=False)
    return done.returncode, done.stdout.decode().splitlines(), done.stderr.decode()


def conflict_dropped(table):
    """Drops the first route's first conflict on both sides. Returns the naming lines."""
    one = next(route for route in table["routes"] if route["conflicts"])
    other = next(route for route in table["routes"] if route["name"] == one["conflicts"][0])
    one["conflicts"].remove(other["name"])
    other["conflicts"].remove(one["name"])
    return [f"differs: route {a['name']} does not list the conflict with {b['name']}: their "
            f"driveways meet" for a, b in ((one, other), (other, one))]


def path_shortened(table):
    """Drops the longest path's last section. Returns the naming lines."""
    route = max(table["routes"], key=lambda one: len(one["path"]))
    whole = " ".join(route["path"])
    route["path"].pop()
    route["points"] = [one for one in route["points"] if one["point"] in route["path"]]
    return [f"differs: the table leaves out the way from {route['source']} over {whole}",
            f"differs: SUMO has no driveway for route {route['name']}, from {route['source']} over "
            f"{' '.join(route['path'])}"]


def route_missing(table):
    """Drops the last route. Returns the naming line."""
    route = table["routes"].pop()
    for one in table["routes"]:
        one["conflicts"] = [name for name in one["conflicts"] if name != route["name"]]
    return [f"differs: the table leaves out the way from {route['source']} over "
            f"{' '.join(route['path'])}"]


def conflict_invented(table):
    """Lists as conflicts two separate routes that share nothing. Returns the line."""
    for one in table["routes"]:
        for other in table["routes"]:
            if other["source"] != one["source"] and \
                    other["name"] not in one["conflicts"] and \
                    {one["destination"], other["destination"]} == {None}:
                one["conflicts"].append(other["name"])
                other["conflicts"].append(one["name"])
                return [f"differs: routes {one['name']} and {other['name']} are conflicts, but "
                        f"SUMO does not keep their trains apart"]
    return []


def check_planted(program, _):
    """A dropped or invented conflict, a shortened path, a missing route: each is named alone."""
    need_sumo()
    invented = 0
    with tempfile.TemporaryDirectory(prefix="irv-sumo-") as room:
        for name, table in tables(program).items():
            status, lines, errors = exported(program, room, table, "--compare")
            if status != 0 or any(line.startswith("differs") for line in lines):
                yield f"{name}: status {status} {lines} {errors}"
            for plant in (conflict_dropped, path_shortened, route_missing, conflict_invented):
                changed = json.loads(json.dumps(table))
                expected = plant(changed)
                invented += plant is conflict_invented and bool(expected)
                if not expected:
                    continue
                status, lines, errors = exported(program, room, changed, "--compare")
                found = sorted(line for line in lines if line.startswith("differs"))
                if status != 1 or found != sorted(expected):
                    yield (f"{name}, {plant.__name__}: status {status}, {found}, not {expected} "
                           f"{errors}")
    if not invented:
        yield "no conflict could be invented"


# the routes from me to a and to b begin alike, over p1 and x; down trains use x later
FORK = document([linear("e", "p1", ".", "me", "."), point("p1", "down", "e", "x", "y"),
                 linear("x", "p2", "p1", ".", "."), point("p2", "down", "x", "a", "b"),
                 linear("a", "p3", "p2", "da", "ma"), linear("b", "p3", "p2", "db", "mb"),
                 point("p3", "up", "z", "a", "b"), linear("z", ".", "p3", ".", "mz"),
                 linear("y", ".", "p1", ".", "my")], [])


def check_begin_alike(program, _):
    """Each of several ways that begin alike has its driveway."""
    need_sumo()
    with tempfile.TemporaryDirectory(prefix="irv-sumo-") as room:
        table = json.loads(answer(program, FORK, "table"))
        status, lines, errors = exported(program, room, table, "--compare")
    if status or "10 routes, 10 driveways, 10 routes have a driveway of the same way" not in lines:
        yield f"status {status}: {lines} {errors}"


def check_not_connected(program, _):
    """A route with an unconnected path has no train, and is named."""
    need_sumo()
    with tempfile.TemporaryDirectory(prefix="irv-sumo-") as room:
        table = json.loads((EXAMPLES / "station.json").read_bytes())
        route = table["routes"][0]
        route["path"] = route["path"][::-1]
        status, lines, errors = exported(program, room, table, "--compare")
    wanted = f"differs: route {route['name']} has no train: its path is not connected"
    if status != 1 or wanted not in lines:
        yield f"status {status}: {lines} {errors}"


def check_arrivals(program, _):
    """Two trains that pass on two tracks arrive. Two that meet head on are named."""
    need_sumo()
    table = json.loads((EXAMPLES / "station.json").read_bytes())
    with tempfile.TemporaryDirectory(prefix="irv-sumo-") as room:
        for marks, late in (("r1 r6 r3 r8", []), ("r1 r3 r5 r7", ["train1-b1", "train2-b2"])):
            scene = Path(room, "a.scene")
            lines = ["drive 1", "enter b1", "enter b2", *(f"mark {one}" for one in marks.split())]
            scene.write_text("\n".join([*lines, "end", ""]), encoding="utf-8")
            status, lines, errors = exported(program, room, table, "--scenario", str(scene),
                                             "--compare", "--metres", "4000")
            wanted = [f"differs: train {name} does not arrive" for name in late]
            found = [line for line in lines if line.startswith("differs")]
            if found != wanted or status != bool(late) or \
                    f"{2 - len(late)} of 2 trains arrive" not in lines:
                yield f"{marks}: status {status}: {lines} {errors}"


def check_export(program, _):
    """Without --compare no SUMO is needed, and each section has an edge per direction."""
    with tempfile.TemporaryDirectory(prefix="irv-sumo-") as room:
        table = json.loads((EXAMPLES / "station.json").read_bytes())
        status, lines, errors = exported(program, room, table)
        directory = next(Path(room).iterdir())
        names = sorted(path.name for path in directory.iterdir())
        edges = (directory / "net.edg.xml").read_text(encoding="utf-8")
        trains = (directory / "trains.rou.xml").read_text(encoding="utf-8")
    if status != 0 or errors or len(lines) != 1:
        yield f"status {status}: {lines} {errors}"
    if names != ["net.con.xml", "net.edg.xml", "net.nod.xml", "trains.rou.xml"]:
        yield f"files: {names}"
    linear = [one["name"] for one in table["sections"] if one["kind"] == "linear"]
    for name in linear:
        for letter in "UD":
            if edges.count(f'id="{name}.{letter}"') != 1:
                yield f"edge {name}.{letter}"
    # r1 of the station: from b1 over p1 to t1
    if '<vehicle id="r1" type="train" depart="0" departPos="base"><route edges="b1.U t1.U"/>' \
            not in trains:
        yield f"the train of r1: {trains[:400]}"


def check_scenario(program, _):
    """A scenario's trains take their requested routes, and arrive."""
    scene = str(EXAMPLES / "station-crossing.scene")
    with tempfile.TemporaryDirectory(prefix="irv-sumo-") as room:
        table = json.loads((EXAMPLES / "station.json").read_bytes())
        status, lines, errors = exported(program, room, table, "--scenario", scene)
        trains = (next(Path(room).iterdir()) / "trains.rou.xml").read_text(encoding="utf-8")
        bad = Path(room, "bad.scene")
        bad.write_text("drive 1\nenter b1\nmark r99\nend\n", encoding="utf-8")
        refused = exported(program, room, table, "--scenario", str(bad))
    if status != 0:
        yield f"status {status}: {lines} {errors}"
    for edges in ("b1.U t1.U b2.U", "b2.D t2.D b1.D"):
        if f'edges="{edges}"' not in trains:
            yield f"no train over {edges}: {trains}"
    if refused[0] != 125 or "line 3" not in refused[2] or "mark r99" not in refused[2]:
        yield f"a bad scenario: {refused}"


def check_refused(program, _):
    """A rejected configuration and a non-empty directory are refused, and nothing is written."""
    with tempfile.TemporaryDirectory(prefix="irv-sumo-") as room:
        for given, said in (({"version": 2}, "refused F3 document"), (None, "is not empty")):
            directory = Path(tempfile.mkdtemp(dir=room))
            if given is None:
                (directory / "kept").write_text("kept", encoding="utf-8")
                given = json.loads((EXAMPLES / "station.json").read_bytes())
            done = subprocess.run([sys.executable, str(TOOLS / "sumo"), str(directory), "--program",
                                   str(program)], input=json.dumps(given).encode(),
                                  capture_output=True, timeout=SECONDS, check=False)
            there = [path.name for path in directory.iterdir()]
            if done.returncode != 125 or said not in done.stderr.decode() or \
                    there not in ([], ["kept"]):
                yield f"{said}: status {done.returncode} {done.stderr} {there}"


def check_failing_sumo(program, _):
    """If SUMO is missing or fails, the call says so, with status 125, and leaves no file."""
    table = json.loads((EXAMPLES / "station.json").read_bytes())
    with tempfile.TemporaryDirectory(prefix="irv-sumo-") as room:
        empty, fake = Path(room, "empty"), Path(room, "fake")
        for path in (empty, fake):
            path.mkdir()
        for name in ("netconvert", "sumo"):
            (fake / name).write_text("#!/bin/sh\necho Error: no memory >&2\nexit 1\n",
                                     encoding="ascii")
            (fake / name).chmod(0o755)
        for path, said in ((str(empty), "netconvert is not installed"),
                           (f"{fake}:/usr/bin:/bin", "netconvert in ")):
            out = Path(room, "out")
            done = subprocess.run([sys.executable, str(TOOLS / "sumo"), str(out), "--compare",
                                   "--program", str(program)], input=json.dumps(table).encode(),
                                  capture_output=True, env={**os.environ, "PATH": path},
                                  timeout=SECONDS, check=False)
            left = list(out.iterdir()) if out.exists() else []
            if done.returncode != 125 or said not in done.stderr.decode() or left or done.stdout:
                yield f"{said}: status {done.returncode} {done.stderr} {left} {done.stdout}"


def check_ways(program, _):
    """Trains are made for the routes that `irv table` finds."""
    for name, table in tables(program).items():
        network = Network(table)
        found = sorted(network.ways())
        routes = sorted((one["source"], tuple(one["path"])) for one in table["routes"])
        if found != routes:
            yield f"{name}: {set(found) ^ set(routes)}"
        files = NetFiles(network, 400.0)
        ends = {end for _, start, end, _ in files.edges for end in (start, end)}
        if ends != set(files.nodes):
            yield f"{name}: nodes without edges: {ends ^ set(files.nodes)}"


ComparisonTests = test_case("ComparisonTests", [
    check_planted, check_begin_alike, check_not_connected, check_arrivals, check_export,
    check_scenario, check_refused, check_failing_sumo, check_ways])
