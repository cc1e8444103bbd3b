"""Tests of the import of XTrackCAD layouts and SUMO networks, derived by hand."""

import tempfile

from tests.importing.map_tests import differences
from tests.importing.small_maps import boards, imported, routes_of, section
from tests.support.harness import test_case

# track 1 leads east into turnout 2, with track 3 straight on and track 4 to its side, each 100
# inches long; the turnout is at 100,0 and 10 inches long
LAYOUT = """VERSION 10 3.0.0
SCALE HO
STRAIGHT 1 0 0 0 0 HO 2
\tE 0.0 0.0 270.0
\tT 2 100.0 0.0 90.0
\tEND
TURNOUT 2 0 0 0 0 HO 2 100.0 0.0 0 0.0 "a \t turnout \t 1"
\tT 1 100.0 0.0 270.0
\tT 3 110.0 0.0 90.0
\tT 4 110.0 2.0 80.0
\tP "Normal" 1 2
\tP "Reverse" 1 3
\tS 0 0 0.0 0.0 5.0 0.0
\tS 0 0 5.0 0.0 10.0 0.0
\tS 0 0 5.0 0.0 10.0 2.0
\tEND
STRAIGHT 3 0 0 0 0 HO 2
\tT 2 110.0 0.0 270.0
\tE 210.0 0.0 90.0
\tEND
CURVE 4 0 0 0 0 HO 2
\tT 2 110.0 2.0 260.0
\tE 210.0 20.0 80.0
\tEND
END
"""
TURNTABLE = """TURNTABLE 5 0 0 0 0 HO 2 0 0 5 0
\tT 3 210.0 0.0 270.0
\tEND
"""
# edges a and b lead to junction n, c away; -a, -b, -c are their reverses
EDGES = {"a": ("w", "n", "0,0 100,0"), "b": ("s", "n", "0,-20 100,0"),
         "c": ("n", "e", "100,0 200,0")}


def net(edges=None, kind="rail_signal", connections=None):
    """Returns the text of a SUMO network."""
    lines = ["<net version='1.9'>"]
    for key, (start, end, shape) in (EDGES if edges is None else edges).items():
        back = " ".join(reversed(shape.split()))
        for name, one, other, places in ((key, start, end, shape), ("-" + key, end, start, back)):
            lines.append(f"<edge id='{name}' from='{one}' to='{other}'><lane id='{name}_0' "
                         f"index='0' allow='rail' speed='20' length='100' shape='{places}'/>"
                         "</edge>")
    lines.append(f"<junction id='n' type='{kind}' x='0' y='0'/>")
    for start, end in connections or (("a", "c"), ("b", "c"), ("-c", "-a"), ("-c", "-b")):
        lines.append(f"<connection from='{start}' to='{end}' fromLane='0' toLane='0' tl='n'/>")
    return "\n".join(lines + ["</net>", ""])


def check_turnout(program, _):
    """A layout turnout's path Normal is its plus leg. Lengths are scaled."""
    with tempfile.TemporaryDirectory(prefix="irv-import-") as room:
        found, notes = imported(program, room, LAYOUT, name="a.xtc")
        turned, _ = imported(program, room, LAYOUT.replace('"Normal"', '"X"').replace(
            '"Reverse"', '"Normal"'), name="a.xtc")
    if found is None or turned is None:
        yield str(notes)
        return
    yield from differences("point", section(found, "p2"), {
        "name": "p2", "kind": "point", "faces": "up", "stem": "t1", "plus": "t3", "minus": "t4"})
    point = section(turned, "p2")
    yield from differences("turned", (point["plus"], point["minus"]), ("t4", "t3"))
    metres = {one["name"]: one["text"] for one in notes["entries"] if one["kind"] == "section"}
    # 101 inches, with the turnout's own, times 87.1 are 223 m
    yield from differences("metres", (metres["t1"], metres["t3"]), ("223 m", "223 m"))
    yield from differences("attribution", notes["attribution"], None)


def check_turntable(program, _):
    """Tracks end at a turntable, as the notes say."""
    data = LAYOUT.replace("\tE 210.0 0.0 90.0", "\tT 5 210.0 0.0 90.0").replace(
        "STRAIGHT 3", TURNTABLE + "STRAIGHT 3")
    with tempfile.TemporaryDirectory(prefix="irv-import-") as room:
        found, notes = imported(program, room, data, name="a.xtc")
    if found is None:
        yield notes
        return
    yield from differences("cut", [one["object"] for one in notes["entries"]
                                   if one["kind"] == "cut"], ["track 5"])


def check_layout_refused(program, _):
    """A layout's faults are named with their lines."""
    six = LAYOUT.replace("\tT 4 110.0 2.0 80.0", "\tT 4 110.0 2.0 80.0\n" + "\tE 1 1 1\n" * 3)
    cases = [("six ends", six, ["line 7", "track 2", "6 ends"]),
             ("no number", LAYOUT.replace("100.0 0.0 90.0", "100.0 x 90.0"), ["line 5", '"x"']),
             ("a track twice", LAYOUT.replace("CURVE 4", "CURVE 3"),
              ["line 21", "track 3", "twice"]),
             ("no track", "VERSION 10\nEND\n", ["no track"]),
             ("an end without a place", LAYOUT.replace("\tE 0.0 0.0 270.0", "\tE 0.0"),
              ["line 4", "track 1"])]
    with tempfile.TemporaryDirectory(prefix="irv-import-") as room:
        for name, data, said in cases:
            found, message = imported(program, room, data, name="a.xtc")
            yield from (f"{name}: `{message}` does not say `{one}`" for one in said
                        if found is not None or one not in message)


def check_net(program, _):
    """A network's connections make its point, and its rail signals the boards."""
    with tempfile.TemporaryDirectory(prefix="irv-import-") as room:
        found, notes = imported(program, room, net(), name="a.net.xml")
        plain, _ = imported(program, room, net(kind="priority"), "--signals", "map",
                            name="a.net.xml")
    if found is None or plain is None:
        yield str(notes)
        return
    point = next(one for one in found["sections"] if one["kind"] == "point")
    legs = {point["plus"], point["minus"]}
    yield from differences("point", (point["faces"], point["stem"], legs),
                           ("down", "c", {"a", "b"}))
    yield from differences("boards of the data", sorted(
        one["text"] for one in notes["entries"] if one.get("by") == "data"),
        ["on a, up", "on b, up", "on c, down"])
    yield from differences("boards without a signal", sorted(boards(plain).values()),
                           [("a", "up"), ("b", "up"), ("c", "down")])
    yield from differences("routes", len(routes_of(program, found)), 4)


def check_net_refused(program, _):
    """A network's faults are named with their lines."""
    triangle = {"a": ("w", "n", "0,0 100,0"), "b": ("s", "n", "0,-20 100,0"),
                "c": ("n", "e", "100,0 200,0")}
    ways = (("a", "c"), ("b", "c"), ("a", "-b"))
    cases = [("a triangle in one place", net(triangle, connections=ways),
              ["junction n", "no two sides"]),
             ("no shape", net({**EDGES, "a": ("w", "n", "0,0")}), ["edge a", "line 2"]),
             ("no length", net().replace("length='100'", "length='-1'"), ["edge a", "line 2"]),
             ("no rail", net().replace("allow='rail'", "allow='bus'"), ["no track"]),
             ("another root", "<map/>", ["<net> is expected"]),
             ("an edge twice", net().replace("id='-a'", "id='a'"), ["edge a", "twice"])]
    with tempfile.TemporaryDirectory(prefix="irv-import-") as room:
        for name, data, said in cases:
            found, message = imported(program, room, data, name="a.net.xml")
            yield from (f"{name}: `{message}` does not say `{one}`" for one in said
                        if found is not None or one not in message)


LayoutTests = test_case("LayoutTests", [check_turnout, check_turntable, check_layout_refused,
                                        check_net, check_net_refused])
