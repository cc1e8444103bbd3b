"""Renamed and dropped routes: each case's arguments, configuration and result."""

import json
from pathlib import Path

from tests.csv.refusal_cases import CONF, other

EXAMPLES = Path(__file__).resolve().parent.parent.parent / "examples"
STATION = (EXAMPLES / "station.json").read_text(encoding="utf-8")
THROAT = (EXAMPLES / "terminus-throat.json").read_text(encoding="utf-8")
PROTECTED = (EXAMPLES / "station-protected.json").read_text(encoding="utf-8")

# hand-derived conflicts of the station's routes without r1 and r8
WITHOUT_R1_R8 = {"r2": ["r6", "r7"], "r3": ["r4", "r5", "r6"], "r4": ["r3", "r5", "r6"],
                 "r5": ["r3", "r4", "r6"], "r6": ["r2", "r3", "r4", "r5"], "r7": ["r2"]}
NAMED = {"r1": "m1-m3", "r2": "m1-m5", "r3": "m3-b2", "r4": "m5-b2", "r5": "m2-m4", "r6": "m2-m6",
         "r7": "m4-b1", "r8": "m6-b1"}

# a section, a board and a route with the same name
SHARED = other('"name": "r1"', '"name": "a"').replace('"m1"', '"a"')


def put(text, names):
    """Returns a configuration with all these names replaced at once. Each denotes one thing, and no
    other quoted text has it."""
    for number, old in enumerate(names):
        text = text.replace(f'"{old}"', f'"\0{number}"')
    for number, new in enumerate(names.values()):
        text = text.replace(f'"\0{number}"', f'"{new}"')
    return json.loads(text, strict=False)


def with_routes(routes):
    """Returns the two sections with routes given by name, source, destination, path and conflicts."""
    return {**json.loads(CONF), "routes": [
        {"name": name, "source": source, "destination": destination, "path": path, "overlap": [],
         "points": [], "conflicts": conflicts} for name, source, destination, path, conflicts in routes]}


def without_r1_r8():
    """Returns the station without two routes."""
    value = json.loads(STATION)
    value["routes"] = [{**route, "conflicts": WITHOUT_R1_R8[route["name"]]} for route in value["routes"]
                       if route["name"] in WITHOUT_R1_R8]
    return value


def of_list():
    """Returns the station after the changes of changes.list."""
    value = put(STATION, {"r1": "x", "t1": "T1"})
    value["routes"].pop()
    for route in value["routes"]:
        route["conflicts"] = [name for name in route["conflicts"] if name != "r8"]
    return value


def cases():
    """Yields the cases."""
    station = json.loads(STATION)
    for names in ({"r1": "x"}, {"r1": "r2", "r2": "r1"}, {"r1": "r2", "r2": "r3", "r3": "r1"}, {"t1": "T1"},
                  {"m3": "S3"}, {"p1": "W1", "b2": "b-2", "m1": "1"}, {"r8": "r8"}):
        words = [word for old, new in names.items() for word in ("--rename", f"{old}={new}")]
        yield words, station, put(STATION, names)
    names = {"p2": "W2", "m2": "S2", "r5": "5"}
    yield ([f"--rename={old}={new}" for old, new in names.items()], json.loads(PROTECTED),
           put(PROTECTED, names))
    names = {"P1": "W1", "PL1": "7", "S10": "S100", "S2-S12": "S5-SID", "S5-SID": "S2-S12"}
    yield ([word for old, new in names.items() for word in ("--rename", f"{old}={new}")],
           json.loads(THROAT), put(THROAT, names))
    yield ["--drop", "r8", "--drop", "r1"], station, without_r1_r8()
    yield ["--list", "changes.list"], station, of_list()
    yield (["--list", "changes.list", "--rename", "r2=y"], station,
           json.loads(json.dumps(of_list()).replace('"r2"', '"y"')))
    # the meant one of several things with one name
    shared = json.loads(SHARED)
    for kind, place in (("route", ("routes", 0, "name")), ("section", ("sections", 0, "name"))):
        wanted = json.loads(SHARED)
        wanted[place[0]][place[1]][place[2]] = "z"
        if kind == "section":
            wanted["sections"][1]["down"] = "z"
            wanted["routes"][1]["path"] = ["z"]
        yield ["--rename", f"{kind}:a=z"], shared, wanted
    wanted = json.loads(SHARED)
    wanted["sections"][0]["board_up"] = wanted["routes"][0]["source"] = "z"
    yield ["--rename", "board:a=z"], shared, wanted
    # names by source and destination
    yield ["--named"], station, put(STATION, NAMED)
    yield (["--rename", "m1-m3=x", "--named", "--rename", "m6-b1=y"], station,
           put(STATION, {**NAMED, "r1": "x", "r8": "y"}))
    yield (["--named"], with_routes([("g0", "m1", "m2", ["b"], ["g1"]), ("g1", "m1", "m2", ["a"], ["g0", "g2"]),
                                     ("g2", "m1", "m2-1", ["b"], ["g3"]), ("g3", "m1", None, ["b", "a"], [])]),
           with_routes([("m1-m2-b", "m1", "m2", ["b"], ["m1-m2-a"]),
                        ("m1-m2-a", "m1", "m2", ["a"], ["m1-m2-b", "m1-m2-1"]),
                        ("m1-m2-1", "m1", "m2-1", ["b"], ["m1-a"]), ("m1-a", "m1", None, ["b", "a"], [])]))
    yield (["--named", "--drop", "m1-m2-a"],
           with_routes([("a", "m1", "m2", ["b"], ["b"]), ("b", "m1", "m2", ["a"], ["a"])]),
           with_routes([("m1-m2-b", "m1", "m2", ["b"], [])]))
    # routes over the same sections, and names already used, get a number
    yield (["--named"], with_routes([("g0", "m1", "m2", ["b"], ["g1"]), ("g1", "m1", "m2", ["b"], ["g0"]),
                                     ("g2", "m1", "m2-1", ["b"], [])]),
           with_routes([("m1-m2-2", "m1", "m2", ["b"], ["m1-m2-3"]), ("m1-m2-3", "m1", "m2", ["b"], ["m1-m2-2"]),
                        ("m1-m2-1", "m1", "m2-1", ["b"], [])]))
    yield (["--named"], with_routes([("g0", "m1", "m2", ["b"], []), ("g1", "m1", "m2", ["a"], []),
                                     ("g2", "m1", "m2-b", ["b"], [])]),
           with_routes([("m1-m2", "m1", "m2", ["b"], []), ("m1-m2-a", "m1", "m2", ["a"], []),
                        ("m1-m2-b", "m1", "m2-b", ["b"], [])]))
    yield ["--named"], alternatives(), put(json.dumps(alternatives()), {
        "g0": "m1-m2-p1", "g1": "m1-m2-p2", "g2": "m1-m2"})


def alternatives():
    """Returns a network whose routes g0 and g1 each have a point of their own, and g2 both."""
    points = [{"name": name, "kind": "point", "faces": "up", "stem": "a", "plus": "b", "minus": "a"}
              for name in ("p1", "p2")]
    value = with_routes([("g0", "m1", "m2", ["a", "p1"], ["g1"]), ("g1", "m1", "m2", ["b", "p2"], ["g2"]),
                         ("g2", "m1", "m2", ["a", "b"], ["g0"])])
    return {**value, "sections": value["sections"] + points}
