"""Tests of advice: planted mistakes are named, but not their correct counterparts."""

import json
import subprocess
from itertools import count

from irvtools.generators import configurations
from irvtools.model.plant import Plant
from irvtools.paths import TOP
from irvtools.rules.flank_protection import POINT, flanks
from irvtools.rules.table_advice import MISTAKE, NOTE, UNCHECKED, by_route, mistakes, notes
from tests.explain import correct_tables
from tests.support.harness import test_case

TOOL = TOP / "tools/explain"
RANDOM = 200
FEWEST = 150            # protecting points in all these tables


def example(name):
    """Returns a configuration of the repository."""
    return json.loads((TOP / name).read_text(encoding="utf-8"))


BAY, PROTECTED = "tests/plants/bay-station.json", "examples/station-protected.json"


def with_route(file, name, **members):
    """Returns a configuration with changed members of a route."""
    value = example(file)
    for route in value["routes"]:
        if route["name"] == name:
            route.update(members)
    return value


def positions(*words):
    """Returns listed points from words such as W1+."""
    return [{"point": word[:-1], "position": "plus" if word[-1] == "+" else "minus"} for word in words]


def with_overlap_point(word):
    """Returns the station with a bay, with E4 in a position in an overlap's list."""
    points = [one for one in next(route for route in example(BAY)["routes"] if route["name"] == "VA1-NU1")["points"]
              if one["point"] != "E4"]
    return with_route(BAY, "VA1-NU1", points=points + positions(word))


# -- mistakes

def check_mistakes(_, __):
    """Each planted mistake is found alone, with its sentence. Its counterpart has none."""
    here = "Route {} has the protecting points {}, "
    idle = "and no vehicle comes over them into its path or overlap without passing a board."
    for name, wrong, right, sentence in [
            ("overlap", with_overlap_point("E4-"), with_overlap_point("E4+"),
             "Route VA1-NU1 lists E4-, and its overlap leads over E4+."),
            ("far end", with_route(PROTECTED, "r1", protecting_points=positions("p2+")), example(PROTECTED),
             here.format("r1", "p2+") + "which lead a vehicle into its path or overlap."),
            ("flank", with_route(BAY, "ND1-NA1", protecting_points=positions("W3-", "W2+")),
             with_route(BAY, "ND1-NA1", protecting_points=positions("W3+", "W2+")),
             here.format("ND1-NA1", "W3-") + "which lead a vehicle into its path or overlap."),
            ("nothing", with_route(BAY, "ND1-NA1", protecting_points=positions("W3+", "W2+", "E1+")),
             with_route(BAY, "ND1-NA1", protecting_points=positions("W2+")), here.format("ND1-NA1", "E1+") + idle),
            ("nothing at the far end", with_route(PROTECTED, "r7", protecting_points=positions("p2+")),
             with_route(PROTECTED, "r7", protecting_points=[]), here.format("r7", "p2+") + idle)]:
        found = mistakes(Plant(wrong))
        if [one.sentence for one in found] != [sentence] or found[0].kind != MISTAKE:
            yield f"{name}: {[one.sentence for one in found]}"
        if mistakes(Plant(right)):
            yield f"{name}: the right one has {mistakes(Plant(right))[0].sentence}"


def check_far_end(_, __):
    """A protecting point beyond the end of a path is counted."""
    plant = Plant(example(PROTECTED))
    points = [flank.guard.number for flank in flanks(plant, plant.routes[0]) if flank.guard.kind == POINT]
    if points != [plant.section_named["p2"]]:
        yield f"counted are {points}"


def check_random(_, __):
    """200 random correct tables have no mistake, and one exchanged position is one."""
    tables = protecting = exchanged = named = 0
    for seed in count():
        value = correct_tables.table(seed)
        if value is None:
            continue
        found = mistakes(Plant(value))
        yield from (f"table {seed}: {one.sentence}" for one in found)
        tables, protecting = tables + 1, protecting + correct_tables.protections(value)
        for route in value["routes"]:
            for one in route["protecting_points"][:1]:
                one["position"] = "minus" if one["position"] == "plus" else "plus"
                exchanged += 1
        named += len({one.routes for one in mistakes(Plant(value))})
        if tables == RANDOM:
            break
    if protecting < FEWEST or named != exchanged:
        yield f"{protecting} protecting points; of {exchanged} exchanged ones {named} are named"


# -- notes

OPEN = """linear a . p . {}
linear b . p . B
point p down c a b
linear c p d . C
linear d c . D .
version 2
route r from B to C path p c points p=minus"""
SHARED = """linear a . p . A
point p up a b q
linear b p . B .
point q down e p c
linear c . q . C
linear e q f . E
linear f e . F .
point z up y x w
linear y . z . Y
linear x z . X .
linear w z . W .
version 2
route one from A to . path p b {}
route two from C to E path q e {}"""


def table(text, *words):
    """Returns a configuration in short form with inserted words."""
    return json.loads(configurations.plant_text(text.format(*words).splitlines()))


def check_notes(_, __):
    """Each note has an example and a silent counterpart."""
    locked = "points p=plus protecting_points z=plus", "points q=minus protecting_points z=minus"
    for name, noted, silent, sentence in [
            ("open leg", table(OPEN, "."), table(OPEN, "A"),
             "A vehicle from the border a can come into the path of route r over p+: neither a protecting point "
             "nor a board is in its way."),
            ("shared", table(SHARED, *locked), table(SHARED, locked[0], "points q=minus"),
             "Routes one and two exclude each other only because both lock the protecting points z."),
            ("trailed", example("examples/terminus-throat.json"),
             with_route("examples/terminus-throat.json", "S6-S12", protecting_points=[]),
             "Route S6-S12 has the protecting points P7+, which a vehicle on its way into the path meets trailing."),
            ("short overlap", with_route(PROTECTED, "r1", overlap=["p2"], protecting_points=[]),
             with_route(PROTECTED, "r1", overlap=["p2", "b2"], protecting_points=[]),
             "Overlaps that do not end at a board, although the line continues: r1 (p2).")]:
        said = [one.sentence for one in notes(Plant(noted))]
        if said.count(sentence) != 1 or {one.kind for one in notes(Plant(noted))} != {NOTE}:
            yield f"{name}: {said}"
        if sentence in [one.sentence for one in notes(Plant(silent))]:
            yield f"{name}: the counterpart is noted"
    short = [one for one in notes(Plant(example(BAY))) if one.sentence.startswith("Overlaps that do not end")]
    if len(short) != 1 or len(short[0].sentence.split("), ")) != 16:
        yield f"overlaps are not in one line: {short}"


# -- calls

def check_calls(program, _):
    """Advice is on standard error, by route, mistakes first. The answer is the program's."""
    value = with_route(BAY, "ND1-NA1", protecting_points=positions("W3-", "E1+"))
    for given, lines in [
            (value, ["mistake: Route ND1-NA1 has the protecting points W3-,",
                     "mistake: Route ND1-NA1 has the protecting points E1+,", "note: Overlaps that do not end "]),
            (example("examples/station.json"), ["advice: no mistakes and no notes"]),
            ({**value, "routes": [{**value["routes"][0], "source": "none", "conflicts": []}]}, [
                "standard input, line 1, column ", "no advice: it needs a configuration in which the rules F, N and R "])]:
        text = json.dumps(given).encode()
        done = subprocess.run([TOOL, "--program", program, "check", "--advise", "--columns", "free"], input=text,
                              capture_output=True, check=False)
        own = subprocess.run([program, "check", "--columns", "free"], input=text, capture_output=True, check=False)
        said = done.stderr.decode().splitlines()
        if (done.stdout, done.returncode) != (own.stdout, own.returncode) or len(said) != len(lines) or any(
                not line.startswith(f"irv: {begin}") for line, begin in zip(said, lines)):
            yield f"{done}"
        if any(line.startswith(("irv: mistake", "irv: note")) and not line.endswith(UNCHECKED) for line in said):
            yield f"not said to be unchecked: {said}"


def check_groups(_, __):
    """Groups with mistakes come first, and those about all routes last."""
    value = example("examples/terminus-throat.json")
    value["routes"][-1]["protecting_points"] = positions("P1+")
    groups = [(name, group[0].kind) for name, group in by_route(Plant(value))]
    wanted = [(value["routes"][-1]["name"], MISTAKE), ("S5-PL3", NOTE), ("S6-S12", NOTE), ("", NOTE)]
    if groups != wanted:
        yield f"{groups}"


AdviceTests = test_case("AdviceTests", [
    check_mistakes, check_far_end, check_random, check_notes, check_calls, check_groups])
