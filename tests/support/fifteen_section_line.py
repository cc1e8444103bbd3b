"""A line of 15 sections, and what may be planted in its table: for the tests of the page.

    U1 -S1 U2 -S3 PA ----- U3 ------ PB - PC ----- U4 - U5      up line
                    \\                /      \\
                     ----- L1 ------         \\
    D1 -X1 D2 ------------ D3 --------------- PD - D4 - D5      down line

S10 and S8 stand at U3 and L1 for trains that run down, S5 and S7 for trains that run up; S6, S4 and S2
stand at D3, D4 and D5 for trains that run down. No route begins at X1 (D1, up) and X2 (U5, down).

Each fault says which rule it breaks, and whether it makes a hazard possible: both are derived by
hand. A fault of C4, C5, C6 or C8 makes none, since locks hold.
"""

import copy

from irvtools.generators.configurations import linear, point, route

SECTIONS = [
    linear("U1", ".", "U2", ".", "S1"), linear("U2", "U1", "PA", ".", "S3"),
    point("PA", "up", "U2", "U3", "L1"), linear("U3", "PA", "PB", "S10", "S5"),
    linear("L1", "PA", "PB", "S8", "S7"), point("PB", "down", "PC", "U3", "L1"),
    point("PC", "up", "PB", "U4", "PD"), linear("U4", "PC", "U5", ".", "."),
    linear("U5", "U4", ".", "X2", "."), linear("D1", ".", "D2", ".", "X1"),
    linear("D2", "D1", "D3", ".", "."), linear("D3", "D2", "PD", "S6", "."),
    point("PD", "down", "D4", "D3", "PC"), linear("D4", "PD", "D5", "S4", "."),
    linear("D5", "D4", ".", "S2", ".")]

ROUTES = [
    "S1_S3 from S1 to S3 path U2 overlap PA points PA=plus protecting_boards S8 S10",
    "S3_S5 from S3 to S5 path PA U3 points PA=plus",
    "S3_S7 from S3 to S7 path PA L1 points PA=minus",
    "S5_U from S5 to . path PB PC U4 U5 points PB=plus PC=plus",
    "S7_U from S7 to . path PB PC U4 U5 points PB=minus PC=plus "
    "protecting_points PD=plus",
    "S5_D from S5 to . path PB PC PD D4 D5 points PB=plus PC=minus PD=minus",
    "S7_D from S7 to . path PB PC PD D4 D5 points PB=minus PC=minus PD=minus",
    "S2_S4 from S2 to S4 path D4",
    "S4_S6 from S4 to S6 path PD D3 points PD=plus",
    "S6_D from S6 to . path D2 D1",
    "S4_S8 from S4 to S8 path PD PC PB L1 points PD=minus PC=minus PB=minus",
    "S4_S10 from S4 to S10 path PD PC PB U3 points PD=minus PC=minus PB=plus",
    "S8_X from S8 to . path PA U2 U1 points PA=minus",
    "S10_X from S10 to . path PA U2 U1 points PA=plus"]


def listed_conflicts(routes):
    """Lists as conflicts of each route the routes that share a section with it."""
    def locked(one):
        return {*one["path"], *one["overlap"], *(p["point"] for p in one["protecting_points"])}
    for one in routes:
        one["conflicts"] = [other["name"] for other in routes
                            if other is not one and locked(other) & locked(one)]


def right():
    """Returns the line without a fault."""
    routes = [route(words.split()) for words in ROUTES]
    listed_conflicts(routes)
    return {"version": 2, "sections": copy.deepcopy(SECTIONS), "routes": routes}


def of(document, name):
    """Returns a section or a route by its name."""
    return next(one for one in document["sections"] + document["routes"] if one["name"] == name)


def lists(document, name, point_name, position):
    """Lists a route's point in another position."""
    next(one for one in of(document, name)["points"]
         if one["point"] == point_name)["position"] = position


def unlisted(document, name, point_name):
    """Removes a point from a route's list."""
    one = of(document, name)
    one["points"] = [entry for entry in one["points"] if entry["point"] != point_name]


def path(document, name, words):
    """Changes a route's path. Keeps its listed points in path and overlap, and updates all
    conflicts."""
    one = of(document, name)
    one["path"] = words.split()
    one["points"] = [entry for entry in one["points"]
                     if entry["point"] in one["path"] + one["overlap"]]
    listed_conflicts(document["routes"])


def bare(document, name, member):
    """Removes a section's board."""
    of(document, name)[member] = None


def passed(document):
    """Extends the route from S1 past S3 to S5."""
    one = of(document, "S1_S3")
    one["name"], one["destination"], one["overlap"] = "S1_S5", "S5", []
    path(document, "S1_S5", "U2 PA U3")


def overlap(document):
    """Leaves PA out of the overlap of S1_S3."""
    one = of(document, "S1_S3")
    one["overlap"], one["points"] = ["U3"], []
    listed_conflicts(document["routes"])


def no_conflict(document, name, other):
    """Removes a route from another's conflicts."""
    of(document, name)["conflicts"].remove(other)


def no_conflict_at_all(document):
    """Removes two routes from each other's conflicts."""
    no_conflict(document, "S3_S5", "S4_S10")
    no_conflict(document, "S4_S10", "S3_S5")


# name: the broken rule, whether a hazard becomes possible, the change
FAULTS = {
    "facing-point-wrong": ("C3", True, lambda d: lists(d, "S3_S7", "PA", "plus")),
    "trailing-point-wrong": ("C3", True, lambda d: lists(d, "S7_U", "PB", "plus")),
    "crossover-point-wrong": ("C3", True, lambda d: lists(d, "S4_S6", "PD", "minus")),
    "crossover-trailing-wrong": ("C3", True, lambda d: lists(d, "S4_S10", "PC", "plus")),
    "point-not-listed": ("C3", True, lambda d: unlisted(d, "S5_U", "PC")),
    "path-skips-section": ("C1", True, lambda d: path(d, "S8_X", "PA U1")),
    "path-skips-point": ("C1", True, lambda d: path(d, "S4_S8", "PD PC L1")),
    "path-begins-late": ("C1", True, lambda d: path(d, "S3_S5", "U3")),
    "path-ends-early": ("C2", True, lambda d: path(d, "S5_U", "PB PC U4")),
    "path-ends-early-down": ("C2", True, lambda d: path(d, "S6_D", "D2")),
    "border-without-board": ("C7", True, lambda d: bare(d, "U5", "board_down")),
    "border-without-board-down": ("C7", True, lambda d: bare(d, "D1", "board_up")),
    "board-passed": ("C2", False, passed),
    "overlap-does-not-follow": ("C4", False, overlap),
    "conflict-on-one-side": ("C5", False, lambda d: no_conflict(d, "S3_S7", "S8_X")),
    "conflict-missing": ("C6", False, no_conflict_at_all),
    "overlap-point-not-listed": ("C3", False, lambda d: unlisted(d, "S1_S3", "PA")),
    "protection-not-listed": ("C8", False, lambda d: of(d, "S1_S3")["protecting_boards"].append("S4")),
}


def with_fault(name):
    """Returns the line with a fault."""
    document = right()
    FAULTS[name][2](document)
    return document
