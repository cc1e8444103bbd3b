"""Pairs of configurations and their reported differences: hand-written ones, and random ones with
known changes.
"""

import copy
import json
import random

from irvtools.csvtables import comparing
from tests.support import random_networks
from irvtools.generators import route_tables
from tests.csv.editing_cases import PROTECTED, STATION, put, with_routes

STATION_VALUE = json.loads(STATION)
SAME, OTHER_ORDER = "the same", "the same, in another order"
VERSIONS = "the version was 1 and is 2; what version 1 doesn't have is an empty list"
PROTECTED_LINES = [
    "route r1: conflicts with r3 r4 r6", "route r1: protecting points with p2-",
    "route r1: protecting boards with m2 m4", "route r3: conflicts with r1",
    "route r4: conflicts with r1", "route r6: conflicts with r1", VERSIONS]


def with_(value, change):
    """Returns a configuration after a change of its sections and routes."""
    value = copy.deepcopy(value)
    change(value["sections"], value["routes"])
    return value


def station(change):
    """Returns the station with a change."""
    return with_(STATION_VALUE, change)


def second(value):
    """Returns the same in version 2."""
    return {**value, "version": 2, "routes": [{**route, "protecting_points": [], "protecting_boards": []}
                                              for route in value["routes"]]}


def upside_down(sections, routes):
    """Reverses every order that has no meaning."""
    sections.reverse()
    routes.reverse()
    for route in routes:
        route["conflicts"].reverse()
        route["points"].reverse()


def without_r8(_, routes):
    """Removes the last route from all lists."""
    routes.pop()
    for route in routes:
        route["conflicts"] = [name for name in route["conflicts"] if name != "r8"]


def all_of_r1(_, routes):
    """Changes all entries of a route except its name."""
    routes[0].update(source="m5", destination=None, path=["p2", "t1", "p1"], overlap=["b2"],
                     points=[{"point": "p1", "position": "minus"}, {"point": "p2", "position": "plus"}],
                     conflicts=["r2", "r3", "r5"])


def inserted(sections, _):
    """Inserts a section between b1 and p1, and moves the board to it."""
    sections[0].update(up="n", board_up=None)
    sections[1].update(stem="n")
    sections.insert(1, {"name": "n", "kind": "linear", "down": "b1", "up": "p1", "board_down": None,
                        "board_up": "m1"})


def in_line(names):
    """Returns a line of linear sections, with a board on the last but one."""
    names = names.split()
    sections = [{"name": name, "kind": "linear", "down": down, "up": up, "board_down": None, "board_up": None}
                for down, name, up in zip([None, *names], names, [*names[1:], None])]
    sections[-2]["board_up"] = "m1"
    return {"version": 1, "sections": sections, "routes": []}


def made_one(sections, routes):
    """Replaces the two sections between the points by one."""
    sections[2:4] = [{"name": "T", "kind": "linear", "down": "p1", "up": "p2", "board_down": "m4",
                      "board_up": "m5"}]
    for point in (sections[1], sections[3]):
        point.update(plus="T", minus="T")
    for route in routes:
        route["path"] = ["T" if name in ("t1", "t2") else name for name in route["path"]]


def to_point(sections, _):
    """Changes a linear section to a point."""
    sections[2] = {"name": "t1", "kind": "point", "faces": "up", "stem": "p1", "plus": "p2", "minus": "b2"}


def moved_aside(sections, routes):
    """Renames all boards, and all sections except b2."""
    value = put(json.dumps({"version": 1, "sections": sections, "routes": routes}), ALL_OTHER)
    sections[:], routes[:] = value["sections"], value["routes"]


ALL_OTHER = {"b1": "B1", "p1": "W1", "t1": "G1", "t2": "G2", "p2": "W2", "m1": "S1", "m2": "S2", "m3": "S3",
             "m4": "S4", "m5": "S5", "m6": "S6"}


def cases():
    """Yields each case's name, old and new configuration, and reported lines."""
    old = STATION_VALUE
    yield "the same", old, old, [SAME]
    yield "upside down", old, station(upside_down), [OTHER_ORDER]
    yield "one list", old, station(lambda _, routes: routes[1]["conflicts"].reverse()), [OTHER_ORDER]
    yield "one point moved, upside down", old, station(lambda sections, routes: (
        upside_down(sections, routes), routes[6]["points"][0].update(position="plus"))), [
            "route r2: points without p1-, with p1+"]
    # routes
    yield "a name", old, put(STATION, {"r1": "x"}), ["route r1 is now called x"]
    yield "two names", old, put(STATION, {"r1": "r2", "r2": "r1"}), [
        "route r1 is now called r2", "route r2 is now called r1"]
    yield "a name and an entry", old, with_(put(STATION, {"r1": "x"}), lambda _, routes: routes[0].update(
        destination=None)), ["route r1 is now called x", "route x: destination m3, now none"]
    yield "a route less", old, station(without_r8), [
        "route r8 went: from m6 out over p1 b1; it was in the conflicts of r1 r2 r7"]
    yield "a route more", station(without_r8), old, [
        "route r8 came: from m6 out over p1 b1; it is in the conflicts of r1 r2 r7"]
    yield "a route less, its name left", old, station(lambda _, routes: routes.pop()), [
        "route r8 went: from m6 out over p1 b1"]
    yield "a route more, its name there", station(lambda _, routes: routes.pop()), old, [
        "route r8 came: from m6 out over p1 b1"]
    yield "all entries", old, station(all_of_r1), [
        "route r1: source m1, now m5", "route r1: destination m3, now none",
        "route r1: path p1 t1, now p2 t1 p1", "route r1: overlap none, now b2",
        "route r1: points without p1+, with p1- p2+", "route r1: conflicts without r7 r8, with r3"]
    yield "the order of a path", old, station(lambda _, routes: routes[0]["path"].reverse()), [
        "route r1: path p1 t1, now t1 p1"]
    yield "a conflict twice", old, station(lambda _, routes: routes[0]["conflicts"].append("r2")), [
        "route r1: conflicts with r2"]
    yield "versions", old, json.loads(PROTECTED), PROTECTED_LINES
    yield "versions alone", old, second(old), [SAME, VERSIONS]
    yield "two of one name", *[with_routes([("a", "m1", None, ["b"], []), ("a", "m2", None, ["a"], [])])] * 2, [
        SAME]
    yield "two of one way", *[with_routes([("x", "m1", None, ["b"], ["y"]), ("y", "m1", None, ["b"], ["x"])])
                              ] * 2, [SAME]
    one_way = [("x", "m1", None, ["b"], ["y"]), ("y", "m1", None, ["b"], ["x"])]
    yield "two of one way, in another order", with_routes(one_way), with_routes(one_way[::-1]), [OTHER_ORDER]
    # sections and boards
    yield "two sections in one", old, station(made_one), [
        "section p1: plus t1, now T", "section p1: minus t2, now T",
        "section t1 went: linear, down p1, up p2, board down m4, board up m3",
        "section t2 went: linear, down p1, up p2, board down m6, board up m5",
        "section p2: plus t1, now T", "section p2: minus t2, now T",
        "section T came: linear, down p1, up p2, board down m4, board up m5",
        "route r1: path p1 t1, now p1 T", "route r2: path p1 t2, now p1 T",
        "route r5: path p2 t1, now p2 T", "route r6: path p2 t2, now p2 T"]
    yield "a section's name", old, put(STATION, {"t2": "T2"}), ["section t2 is now called T2"]
    yield "a board's name", old, put(STATION, {"m3": "S3"}), ["board m3 is now called S3"]
    yield "all names but one", old, station(moved_aside), [
        "section b1 is now called B1", "section p1 is now called W1", "section t1 is now called G1",
        "section t2 is now called G2", "section p2 is now called W2", "board m1 is now called S1",
        "board m4 is now called S4", "board m3 is now called S3", "board m6 is now called S6",
        "board m5 is now called S5", "board m2 is now called S2"]
    yield "a section's name in the network alone", old, station(
        lambda sections, _: (sections[1].update(minus="T2"), sections[3].update(name="T2"),
                             sections[4].update(minus="T2"))), [
            "section p1: minus t2, now T2", "section t2 went: linear, down p1, up p2, board down m6, board up m5",
            "section p2: minus t2, now T2",
            "section T2 came: linear, down p1, up p2, board down m6, board up m5"]
    yield "a board's name in the network alone", old, station(
        lambda sections, _: sections[2].update(board_up="S3")), ["section t1: board up m3, now S3"]
    yield "a section between", old, station(inserted), [
        "section b1: up p1, now n", "section b1: board up m1, now none", "section p1: stem b1, now n",
        "section n came: linear, down b1, up p1, board up m1"]
    yield "a board on another section", old, station(lambda sections, _: (
        sections[0].update(board_up=None), sections[5].update(board_up="m1"))), [
            "section b1: board up m1, now none", "section b2: board up none, now m1"]
    yield "two names and a section between", in_line("a x y d"), in_line("a X z Y d"), [
        "section a: up x, now X", "section x went: linear, down a, up y",
        "section y went: linear, down x, up d, board up m1", "section d: down y, now Y",
        "section X came: linear, down a, up z", "section z came: linear, down X, up Y",
        "section Y came: linear, down z, up d, board up m1"]
    yield "a name and another section behind it", in_line("a x q b c"), in_line("a X c b"), [
        "section a: up x, now X", "section x went: linear, down a, up q",
        "section q went: linear, down x, up b", "section b: down q, now c", "section b: up c, now none",
        "section b: board up m1, now none", "section c: down b, now X", "section c: up none, now b",
        "section c: board up none, now m1", "section X came: linear, down a, up c"]
    yield "a border that is none any more", in_line("c a x"), in_line("c a X z"), [
        "section a: up x, now X", "section a: board up m1, now none", "section x went: linear, down a",
        "section X came: linear, down a, up z, board up m1", "section z came: linear, down X"]
    yield "another kind", old, station(to_point), [
        "section t1: kind linear, now point", "section t1: down p1, now none", "section t1: up p2, now none",
        "section t1: board down m4, now none", "section t1: board up m3, now none",
        "section t1: stem none, now p1", "section t1: plus none, now p2", "section t1: minus none, now b2",
        "section t1: faces none, now up"]
    yield "a point turned", old, station(lambda sections, _: sections[1].update(faces="down", plus="t2",
                                                                                minus="t1")), [
        "section p1: plus t1, now t2", "section p1: minus t2, now t1", "section p1: faces up, now down"]


def network_cases():
    """Yields each case's name, its table, and the lines reported beside its network's."""
    yield "the network's table", STATION_VALUE, ["the same: each way has its route"]
    yield "upside down", station(upside_down), ["the same: each way has its route"]
    yield "other names", put(STATION, {"r1": "g3", "r2": "g0"}), ["the same: each way has its route"]
    yield "no routes", station(lambda _, routes: routes.clear()), [
        "no route: from m1 to m3 over p1 t1", "no route: from m1 to m5 over p1 t2",
        "no route: from m4 out over p1 b1", "no route: from m3 out over p2 b2",
        "no route: from m6 out over p1 b1", "no route: from m5 out over p2 b2",
        "no route: from m2 to m4 over p2 t1", "no route: from m2 to m6 over p2 t2"]
    yield "a way without a route", station(without_r8), ["no route: from m6 out over p1 b1"]
    yield "another path", station(lambda _, routes: routes[0].update(name="g0", path=["t1"])), [
        "no route: from m1 to m3 over p1 t1", "route r2: conflicts with r1", "route r7: conflicts with r1",
        "route r8: conflicts with r1", "route r5: conflicts with r1",
        "route g0 is no way of the network: from m1 to m3 over t1"]
    yield "another position", station(lambda _, routes: routes[1]["points"][0].update(position="plus")), [
        "route r2: points without p1-, with p1+"]
    yield "another end", station(lambda _, routes: routes[0].update(destination=None)), [
        "route r1: destination m3, now none"]
    yield "protection", json.loads(PROTECTED), [
        "route r1: conflicts with r3 r4 r6", "route r1: protecting points with p2-",
        "route r1: protecting boards with m2 m4", "route r3: conflicts with r1",
        "route r6: conflicts with r1", "route r4: conflicts with r1"][:3] + [
        "route r3: conflicts with r1", "route r4: conflicts with r1", "route r6: conflicts with r1"]


# -- random

def table(seed):
    """Returns a random network with its routes, or `None` if it has no table."""
    value, _ = random_networks.network(seed)
    routes = route_tables.routes(value)
    return None if isinstance(routes, str) or not routes else {**value, "version": 2, "routes": routes}


def shuffled(value, chance):
    """Returns the same in another order."""
    def mix(sections, routes):
        for list_ in (sections, routes, *(route[member] for route in routes
                                          for member in ("conflicts", "points"))):
            chance.shuffle(list_)
    return with_(value, mix)


def lines(old, new):
    """Returns the reported lines."""
    return comparing.Comparison(old, new).lines()


def chance_faults(seed):
    """Yields wrong reports of changes over a seed's network."""
    value, chance = table(seed), random.Random(seed)
    if value is None:
        return
    mixed = shuffled(value, chance)
    if lines(value, mixed) != [SAME if mixed == value else OTHER_ORDER]:
        yield f"in another order: {lines(value, mixed)}"
    yield from name_faults(value, mixed, chance)
    yield from drop_faults(value, mixed, chance)
    yield from entry_faults(value, mixed, chance)


def name_faults(value, mixed, chance):
    """Yields wrong reports after renaming some sections, boards and routes."""
    sections = [one["name"] for one in value["sections"]]
    boards = [one[side] for one in value["sections"] for side in ("board_down", "board_up") if one.get(side)]
    routes = [one["name"] for one in value["routes"]]
    new, wanted = {}, []
    for word, names, most in (("section", sections, len(sections) // 3), ("board", boards, len(boards)),
                              ("route", routes, len(routes))):
        for old in chance.sample(names, chance.randint(0, most)):
            new[old] = old.upper() + "-"
            wanted.append(f"{word} {old} is now called {new[old]}")
    told = lines(value, put(json.dumps(mixed), new))
    if wanted and sorted(told) != sorted(wanted):
        yield f"other names: {sorted(set(told) ^ set(wanted))[:4]}"


def drop_faults(value, mixed, chance):
    """Yields wrong reports after dropping routes."""
    dropped = chance.sample([one["name"] for one in value["routes"]],
                            chance.randint(1, len(value["routes"])))
    new = {**mixed, "routes": [{**route, "conflicts": [name for name in route["conflicts"]
                                                       if name not in dropped]}
                               for route in mixed["routes"] if route["name"] not in dropped]}
    told = lines(value, new)
    if sorted(line.split()[1] for line in told) != sorted(dropped) or any(" went: " not in one for one in told):
        yield f"dropped {dropped}: {told[:4]}"


def entry_faults(value, mixed, chance):
    """Yields wrong reports after changing one entry."""
    route = chance.choice(mixed["routes"])
    for member, new, line in (
            ("destination", "z9", "destination {old}, now z9"),
            ("overlap", ["z9"], "overlap none, now z9"),
            ("source", "z9", "source {old}, now z9"),
            ("conflicts", [*route["conflicts"], "z9"], "conflicts with z9"),
            ("protecting_points", [{"point": "z9", "position": "minus"}], "protecting points with z9-"),
            ("protecting_boards", ["z9"], "protecting boards with z9")):
        changed = with_(mixed, lambda _, routes: routes[mixed["routes"].index(route)].update({member: new}))
        wanted = f"route {route['name']}: " + line.format(old=route[member] or "none")
        if lines(value, changed) != [wanted]:
            yield f"{wanted!r}: {lines(value, changed)[:4]}"
