"""Tests of the import of small OpenStreetMap maps, derived by hand."""

import bz2
import gzip
import subprocess
import sys
import tempfile
from pathlib import Path

from irvtools.importing.notes import boards_by_rule, read_notes
from irvtools.paths import TOOLS
from tests.importing.small_maps import (LOOP_NODES, LOOP_WAYS, SWITCHES, boards, call, imported,
                                        osm, routes_of, section)
from tests.support.harness import test_case

MARKER = {"railway": "signal", "railway:signal:train_protection:type": "block_marker"}


def differences(what, found, expected):
    """Yields a line if two values differ."""
    if found != expected:
        yield f"{what}: {found!r} instead of {expected!r}"


def check_loop(program, _):
    """A passing loop gets its sections, points, directions and boards."""
    with tempfile.TemporaryDirectory(prefix="irv-import-") as room:
        found, notes = imported(program, room, osm())
    if found is None:
        yield notes
        return
    yield from differences("sections", [one["name"] for one in found["sections"]],
                           ["t10", "t11", "t12", "t13", "p2", "p3"])
    yield from differences("p2", section(found, "p2"), {
        "name": "p2", "kind": "point", "faces": "up", "stem": "t10", "plus": "t11", "minus": "t12"})
    yield from differences("p3", section(found, "p3"), {
        "name": "p3", "kind": "point", "faces": "down", "stem": "t13", "plus": "t11",
        "minus": "t12"})
    yield from differences("boards", boards(found), {
        "t10-U": ("t10", "up"), "t13-D": ("t13", "down"), "t11-D": ("t11", "down"),
        "t11-U": ("t11", "up"), "t12-D": ("t12", "down"), "t12-U": ("t12", "up")})
    yield from differences("routes", len(routes_of(program, found)), 8)
    yield from differences("attribution", notes["attribution"],
                           "© OpenStreetMap contributors, ODbL 1.0")
    by = {one["name"]: one["by"] for one in notes["entries"] if one["kind"] == "board"}
    yield from differences("boards in the notes", by, dict.fromkeys(boards(found), "rule"))


def check_notes(program, _):
    """The notes can be read again, with the boards that no data has. Another file is refused."""
    nodes = {**LOOP_NODES, "7": (0.0, 0.002)}
    ways = {**LOOP_WAYS, "10": ["1", "7", "2"]}
    tags = {**SWITCHES, "7": {**MARKER, "railway:signal:direction": "forward", "ref": "N1"}}
    with tempfile.TemporaryDirectory(prefix="irv-import-") as room:
        found, message = imported(program, room, osm(nodes, ways, tags))
        if found is None:
            yield message
            return
        read = read_notes(Path(room, "out.notes.json"))
        yield from differences("boards by rule", boards_by_rule(read),
                               set(boards(found)) - {"N1"})
        yield from differences("source", (read["source"], read["form"]),
                               ("map.osm", "OpenStreetMap XML"))
        for other in ("[]", "{}", '{"notes": 2, "entries": []}', "no JSON"):
            Path(room, "other").write_text(other, encoding="utf-8")
            try:
                read_notes(Path(room, "other"))
                yield f"{other} is read"
            except ValueError:
                pass


def check_files(program, _):
    """An unreadable or unwritable file is named, and nothing is left."""
    cases = [("none.osm", (), "cannot read none.osm: no such file"),
             ("room.osm", (), "cannot read room.osm: not a regular file"),
             ("map.png", (), "map.png: the name has to end with .osm, .net.xml, .xtc"),
             ("map.osm", ("--out", "none/a.json"), "cannot write none/a.json: No such file"),
             ("map.osm", ("--near", "0,0"), "LAT,LON,METRES are three numbers"),
             ("map.osm", ("--near", "91,0,5"), "LAT is within 89"),
             ("map.osm", ("--signals", "none"), "invalid choice"),
             ("a.xtc", ("--near", "0,0,500"), "XTrackCAD layout has no latitude"),
             ("cut.osm.gz", (), "cannot read cut.osm.gz after")]
    with tempfile.TemporaryDirectory(prefix="irv-import-") as room:
        Path(room, "room.osm").mkdir()
        for name in ("map.osm", "map.png", "a.xtc"):
            Path(room, name).write_text(osm(), encoding="utf-8")
        Path(room, "cut.osm.gz").write_bytes(gzip.compress(osm().encode())[:-20])
        before = sorted(Path(room).iterdir())
        for name, words, said in cases:
            if "--out" in words:
                done = subprocess.run([sys.executable, str(TOOLS / "import"), name, "--program",
                                       str(program), *words], cwd=room, capture_output=True,
                                      text=True, check=False)
                status, errors = done.returncode, done.stderr
            else:
                status, _, errors = call(program, room, name, *words)
            if status != 125 or said not in errors or sorted(Path(room).iterdir()) != before:
                yield f"{name} {words}: status {status}, {errors}"


def check_compressed(program, _):
    """A compressed map gives the same configuration in any order of ways."""
    turned = osm(ways={key: LOOP_WAYS[key][::-1] for key in LOOP_WAYS})
    with tempfile.TemporaryDirectory(prefix="irv-import-") as room:
        plain, _ = imported(program, room, osm())
        for name, data in (("a.osm.gz", gzip.compress(osm().encode())),
                           ("a.osm.bz2", bz2.compress(osm().encode())),
                           ("a.osm", turned.encode())):
            found, notes = imported(program, room, data, name=name)
            yield from differences(f"{name} {notes if found is None else ''}", found, plain)


def check_signals(program, _):
    """Signals become boards in their direction, except those beside the track."""
    nodes = {**LOOP_NODES, "7": (0.0, 0.002), "8": (0.0, 0.014), "9": (0.001, 0.0)}
    ways = {**LOOP_WAYS, "10": ["1", "7", "2"], "13": ["3", "8", "4"]}
    tags = {**SWITCHES, "7": {**MARKER, "railway:signal:direction": "forward", "ref": "N1"},
            "8": {"railway": "signal", "railway:signal:main": "DE-ESO:ks",
                  "railway:signal:direction": "backward", "ref": "no name"},
            "9": {"railway": "signal", "railway:signal:main": "x"}}
    with tempfile.TemporaryDirectory(prefix="irv-import-") as room:
        found, notes = imported(program, room, osm(nodes, ways, tags), "--signals", "map")
        by_rule, _ = imported(program, room, osm(nodes, ways, tags), "--signals", "rule")
    if found is None or by_rule is None:
        yield f"not imported: {notes}"
        return
    yield from differences("boards", boards(found), {
        "N1": ("t10", "up"), "m8": ("t13_1", "down")})
    yield from differences("sections by rule", sorted(one["name"] for one in by_rule["sections"]),
                           ["p2", "p3", "t10", "t11", "t12", "t13"])
    left = {one["object"]: one["text"] for one in notes["entries"] if one["kind"] == "left out"}
    yield from differences("left out", left, {"node 9": "a signal that is on no track"})
    guessed = [one["object"] for one in notes["entries"] if one["kind"] == "guessed"]
    yield from differences("guessed", guessed, ["node 8", None])


def check_names(program, _):
    """Names come from the data if the schema allows them and they are unused."""
    tags = {"2": {"railway": "switch", "ref": "W1", "railway:turnout_side": "right"},
            "3": {"railway": "switch", "ref": "W1"}}
    way_tags = {"11": {"railway:track_ref": "2"}, "12": {"railway:track_ref": "3 a"}}
    with tempfile.TemporaryDirectory(prefix="irv-import-") as room:
        found, notes = imported(program, room, osm(tags=tags, way_tags=way_tags))
    if found is None:
        yield notes
        return
    yield from differences("names", [one["name"] for one in found["sections"]],
                           ["t10", "2", "t12", "t13", "W1", "p3"])
    # the loop leaves to the left (north), so for a switch that diverges right it is plus
    yield from differences("W1", section(found, "W1"), {
        "name": "W1", "kind": "point", "faces": "up", "stem": "t10", "plus": "t12", "minus": "2"})


def check_near(program, _):
    """Only tracks near a place are imported, and the area's ends are noted."""
    with tempfile.TemporaryDirectory(prefix="irv-import-") as room:
        found, notes = imported(program, room, osm(), "--near=-0.00001,0.004,300")
        nothing, message = imported(program, room, osm(), "--near", "10,10,300")
        # node 7, between 1 and 2, is outside: a track that leaves the area there and returns has
        # two ends
        around, around_notes = imported(
            program, room, osm({**LOOP_NODES, "7": (0.0012, 0.002)},
                               {**LOOP_WAYS, "10": ["1", "7", "2"]}), "--near=-0.008,0.002,950")
    if found is None:
        yield notes
        return
    yield from differences("points", [one["name"] for one in found["sections"]
                                      if one["kind"] == "point"], ["p2"])
    ends = sorted(one["object"] for one in notes["entries"]
                  if one["kind"] == "end" and "the end of the area" in one["text"])
    yield from differences("ends", ends, ["node 1", "node 3", "node 6"])
    if around is None:
        yield around_notes
    else:
        ends = sorted(one["object"] for one in around_notes["entries"] if one["kind"] == "end")
        yield from differences("ends around", ends, ["node 3", "node 5", "node 7"])
    yield from differences("far away", nothing, None)
    if "no track within 300 m of 10,10" not in message:
        yield f"far away: {message}"


def check_crossing(program, _):
    """A crossing becomes two points stem to stem, with the missing ways in the notes."""
    nodes = {"1": (-0.001, 0.0), "2": (0.001, 0.0), "3": (0.0, 0.003), "4": (-0.001, 0.006),
             "5": (0.001, 0.006)}
    ways = {"10": ["1", "3", "5"], "11": ["2", "3", "4"]}
    with tempfile.TemporaryDirectory(prefix="irv-import-") as room:
        found, notes = imported(program, room, osm(nodes, ways,
                                                   {"3": {"railway": "railway_crossing"}}))
        slip, slip_notes = imported(program, room, osm(nodes, ways, {
            "3": {"railway": "switch", "railway:switch": "double_slip"}}))
    if found is None or slip is None:
        yield f"{notes} {slip_notes}"
        return
    points = [one for one in found["sections"] if one["kind"] == "point"]
    yield from differences("stems", sorted((one["name"], one["stem"]) for one in points),
                           [("p3", "p3_2"), ("p3_2", "p3")])
    text = next(one["text"] for one in notes["entries"] if one["kind"] == "crossing")
    yield from differences("routes that the notes drop", text.count(" with "), 2)
    for one in points:              # the two missing ways turn
        if one["name"] == "p3":
            leg = {one["plus"]: "plus", one["minus"]: "minus"}
        else:
            other = {one["plus"]: "plus", one["minus"]: "minus"}
    for below, above in (("t10", "t11_1"), ("t11", "t10_1")):
        wanted = f"p3 {leg[below]} with p3_2 {other[above]}"
        if wanted not in text:
            yield f"the notes do not say {wanted}: {text}"
    text = next(one["text"] for one in slip_notes["entries"] if one["kind"] == "crossing")
    if "double slip" not in text or "drop" in text:
        yield f"a double slip: {text}"


def check_refused(program, _):
    """A map's fault is named with its id, and nothing is written."""
    loop = {**LOOP_NODES, "7": (0.001, 0.018)}
    star = {"1": (0, 0), "2": (0, 0.01), "3": (0, -0.01), "4": (0.01, 0), "5": (0.01, 0.01),
            "6": (-0.01, 0.01)}
    many = {str(n): (0.0, 0.002 * n) for n in range(1, 300)}
    signals = {key: {**MARKER, "railway:signal:direction": "forward"} for key in many}
    cases = [
        ("a reversing loop", osm(loop, {**LOOP_WAYS, "14": ["4", "7", "3"]}), (),
         ["a reversing loop", "--cut", "way 1"]),
        ("five arms", osm(star, {str(10 + n): ["1", str(n)] for n in range(2, 7)}, {}), (),
         ["node 1: 5 tracks meet there"]),
        ("too many sections", osm(many, {"10": list(many)}, signals), (),
         ["way 10", "298 sections", "256"]),
        ("one track", osm(ways={"10": ["1", "2"]}, tags={}), (), ["way 10", "one section"]),
        ("no track", osm(way_tags={key: {"railway": "abandoned"} for key in LOOP_WAYS}), (),
         ["no track"]),
        ("no such part", osm(), ("--part", "2"), ["--part 2", "parts 1 to 1"]),
        ("no such object", osm(), ("--cut", "way 99"), ["--cut way 99"]),
        ("a document type", osm(before="<!DOCTYPE osm>"), (), ["line 2", "document type (osm)"]),
        ("an entity", osm(tags={"2": {"ref": "&x;"}}), (), ["line 4", "undefined entity"]),
        ("another root", "<net/>", (), ["line 1", "<osm> is expected"]),
        ("a way twice", osm(after="<way id='10'><tag k='railway' v='rail'/></way>"), (),
         ["way 10 is in the file twice", "line"]),
        ("a node twice", osm(after="<node id='1' lat='0' lon='0'/>"), (),
         ["node 1 is in the file twice", "line"]),
        ("no degrees", osm({**LOOP_NODES, "1": ("nan", 0)}), (), ["node 1", "degrees", "line 3"])]
    with tempfile.TemporaryDirectory(prefix="irv-import-") as room:
        for name, data, words, said in cases:
            found, message = imported(program, room, data, *words)
            if found is not None:
                yield f"{name}: imported"
                continue
            yield from (f"{name}: `{message}` does not say `{one}`" for one in said
                        if one not in message)


def check_cut(program, _):
    """A reversing loop is imported if its track is cut, or with --cut-loops. The cut is noted."""
    data = osm({**LOOP_NODES, "7": (0.001, 0.018)}, {**LOOP_WAYS, "14": ["4", "7", "3"]})
    with tempfile.TemporaryDirectory(prefix="irv-import-") as room:
        for words in (("--cut", "way 14"), ("--cut", "14"), ("--cut-loops",)):
            found, notes = imported(program, room, data, *words)
            if found is None:
                yield f"{words}: {notes}"
            elif not any(one["kind"] == "cut" for one in notes["entries"]):
                yield f"{words}: no cut is noted"


def check_existing(program, _):
    """Existing files are not overwritten."""
    for taken in ("out.json", "out.notes.json"):
        with tempfile.TemporaryDirectory(prefix="irv-import-") as room:
            Path(room, "map.osm").write_text(osm(), encoding="utf-8")
            Path(room, taken).write_text("kept", encoding="utf-8")
            status, _, errors = call(program, room, "map.osm")
            yield from differences(f"{taken}: status", status, 125)
            if f"{taken} exists" not in errors:
                yield f"{taken}: {errors}"
            yield from differences(taken, Path(room, taken).read_text(encoding="utf-8"), "kept")
            yield from differences(f"{taken}: files", len(list(Path(room).iterdir())), 2)


MapTests = test_case("MapTests", [
    check_loop, check_notes, check_files, check_compressed, check_signals, check_names, check_near,
    check_crossing, check_refused, check_cut, check_existing])
