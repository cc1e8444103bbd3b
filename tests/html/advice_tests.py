"""Tests of the page's advice, derived by hand: each sentence over the smallest plant to which it
applies and one to which it does not."""

from irvtools.html.advice_section import advice_part
from irvtools.rules.flank_protection import guards
from tests.support.html_reports import part_of, plant_of
from tests.support.harness import test_case

FORK = """linear a . p . m1
    point p up a t u
    linear t p . m2 .
    linear u p . m3 .
    """
TRAP = """linear a . p . m1
    point p up a t q
    linear t p . m2 .
    point q down u p x
    linear x . q . m5
    linear u q . m3 .
    """
CROSSING = """linear a . p . m1
    linear b . p . m2
    point p down q a b
    point q up p c d
    linear c q . m3 .
    linear d q . m4 .
    """
LINE = """linear a . b . m1
    linear b a c . m3
    linear c b d . .
    linear d c . m2 .
    """
R1 = "route r1 from m1 to . path p t points p=plus"
BARE_FORK = FORK.replace("u p . m3", "u p . .")

# a plant, sentences in its advice, and sentences not in it
ADVICE = [
    # ways into a path over a point
    (BARE_FORK + R1, ["In one place a vehicle could run into a route's path over points.",
                      "nothing 1.", "A vehicle from the border u can come into the path of route "
                                    "r1 over p-: "
                      "neither a protecting point nor a board is in its way."], ["Mistake"]),
    (FORK + R1, ["a closed board 1; nothing 0.", "r1 the minus leg of p u a closed board: m3"],
     ["can come into the path", "without an overlap"]),
    (FORK + R1 + " protecting_boards m3", ["a protecting board 1;", "a protecting board: m3"],
     ["can come into the path"]),
    (TRAP + R1 + " protecting_points q=minus", ["a protecting point 1;", "a protecting point: q"],
     ["can come into the path"]),
    (TRAP + R1 + " protecting_points q=plus", ["a protecting point 0;", "a closed board: m3",
     "Mistake: Route r1 has the protecting points q+, which lead a vehicle into its path or "
     "overlap."], []),
    (TRAP.replace("u q . m3", "u q . .") + R1, ["A vehicle from the border u can come into the "
                                                "path"],
     ["border x"]),
    (CROSSING + "route r1 from m1 to . path p q c points p=plus q=plus",
     ["In 2 places", "r1 the minus leg of p (lines cross at p and q) b a closed board: m2",
      "r1 the minus leg of q (lines cross at q and p) d a closed board: "
      "m4"], ["can come into the path"]),
    (LINE + "route r1 from m1 to m3 path b", ["No route leads over points"], ["Flank protection"]),
    # overlaps
    (LINE + "route r1 from m1 to m3 path "
            "b", ["1 route without an overlap beyond the exit board: r1."], []),
    (LINE + "route r1 from m1 to m3 path b overlap c",
     ["Overlaps that do not end at a board, although the line continues: r1 (c)."],
     ["without an overlap"]),
    (LINE + "route r1 from m1 to m3 path b overlap c d",
     ["The overlap of r1 ends where the network ends."],
     ["do not end at a board", "without an overlap"]),
    (LINE.replace("c b d . .", "c b d . m4") + "route r1 from m1 to m3 path b overlap c", [],
     ["do not end at a board", "without an overlap", "The overlap of"]),
    # ways of the network
    (LINE + "route r1 from m1 to m3 path b\nroute r2 from m3 to . path c d\n"
     "route r3 from m2 to . path c b "
     "a", ["The network has 3 candidate routes", "The table has 3 routes."],
     ["not in the table", "not a candidate"]),
    (LINE + "route r2 from m3 to . path c d\nroute r3 from m2 to . path c b a",
     ["1 candidate route from board to board is not in the table: m1 to m3 over b."],
     ["not a candidate", "trap road"]),
    (LINE + "route r1 from m1 to m3 path b\nroute r3 from m2 to . path c b a",
     ["1 candidate route out of the area over a border that the table uses is not in the table: m3 "
      "to out "
      "over c d."], ["trap road", "not a candidate"]),
    (FORK + "route r1 from m1 to . path p t points p=plus\nroute r2 from m2 to . path p a points "
            "p=plus",
     ["2 candidate routes to or from a border that the table does not use, such as a dead end or a "
      "trap "
      "road are not in the table: m1 to out over p u; m3 to out over p "
      "a."], ["out of the area over a border"]),
    (LINE + "route r1 from m1 to . path b "
            "c", ["1 route of the table is not a candidate route of the network: r1."], []),
    # use
    (LINE + "route r1 from m1 to m3 path b", ["1 board at which no route begins or ends: m2."], []),
    (FORK + R1, ["The only route that locks points p needs them in position plus.",
                 "2 boards at which no route begins or ends: m2 and "
                 "m3."], ["Points that no route"]),
    (FORK + R1 + "\nroute r2 from m2 to . path p a points p=plus",
     ["All 2 routes that lock points p need them in position plus."], []),
    (FORK + R1 + "\nroute r2 from m1 to . path p u points p=minus", [], ["in position"]),
    (TRAP + R1, ["Points that no route locks: q."], []),
    # one cause
    (FORK + "route r1 from m1 to . path p t points p=minus\n"
     "route r2 from m3 to . path p a points p=plus",
     ["All 2 routes that lead over points p and list them, list them in the position that does not "
      "lead "
      "along their path (r1 and r2). This may be one mistake instead of 2: the legs plus and minus "
      "of p may "
      "be exchanged in the network."], []),
    (FORK + "route r1 from m1 to . path p t points p=minus\n"
     "route r2 from m3 to . path p a points p=minus", [], ["exchanged"]),
    (FORK + "route r1 from m1 to . path p t points p=minus\n"
     "route r2 from m3 to . path p a points p=plus\nroute r3 from m2 to . path p a points p=plus",
     [], ["exchanged"]),
    (FORK + "route r1 from m1 to . path p t points p=minus", [], ["exchanged"])]


def check_advice(program, _):
    """Each piece of advice is given exactly when it applies."""
    for text, wanted, unwanted in ADVICE:
        said = part_of(program, text, advice_part, [])
        yield from (f"{text}: {one!r} isn't in {said}" for one in wanted if one not in said)
        yield from (f"{text}: {one!r} is in {said}" for one in unwanted if one in said)
        if "This is advice, not an answer of irv." not in said:
            yield f"{text}: not marked as advice"
    said = part_of(program, FORK + R1, advice_part, [0])
    if "No run was found in which a train uses the whole route: r1." not in said:
        yield f"a route without a use: {said}"


def check_advice_asks(program, _):
    """If the table has no routes, the page says so. A flank is walked back once through each
    section."""
    endless = "\n".join(["linear s0 . s1 . m1"] + [f"linear s{i} s{i - 1} s{i + 1} . ." for i in
                                                  range(1, 34)] + ["linear s34 s33 . m2 ."])
    said = part_of(program, endless, advice_part, [])
    for wanted in ("refused G1 boards[0]", "does not know the candidate routes"):
        if wanted not in said:
            yield f"{wanted!r} isn't in {said}"
    ladder = ["linear a . p . m1", "point p up a t q0", "linear t p . m2 ."]
    for i in range(20):             # a row of loops: 2 to the 20th ways back
        before = "p" if i == 0 else f"v{i - 1}"
        ladder += [f"point q{i} up {before} x{i} y{i}", f"linear x{i} q{i} r{i} . .",
                   f"linear y{i} q{i} r{i} . .", f"point r{i} down v{i} x{i} y{i}",
                   f"linear v{i} r{i} {f'q{i + 1}' if i < 19 else '.'} . ."]
    plant, _ = plant_of("\n".join([*ladder, R1]))
    first, last = plant.section_named["q0"], plant.section_named["v19"]
    found = list(guards(plant, plant.routes[0], first, "down", plant.section_named["p"]))
    if [guard.number for guard in found] != [last]:
        yield f"the ladder: {len(found)} ways back"


AdviceTests = test_case("AdviceTests", [check_advice, check_advice_asks])
