"""Tests of `irv --csv --fill`."""

import copy
import itertools
import json
import random
import re
import subprocess
import tempfile
from pathlib import Path

from irvtools.csvtables import filling, reading, writing
from irvtools.generators import configurations
from irvtools.paths import TOP
from irvtools.rules.exclusions import demanded
from irvtools.model.phrases import point_word
from irvtools.model.plant import Plant
from tests.csv.round_trips import plants
from tests.csv.tool_calls import call
from tests.support import random_tables
from tests.support.harness import test_case

TYPED = TOP / "tests/plants/bay-station"
BAY = TOP / "tests/plants/bay-station.json"
BOTH = ["conflicts", "points"]
RANDOM = 500
PAIR = re.compile(r"refused (C[568]) routes\[([0-9]+)\] routes\[([0-9]+)\]")


def check(program, value):
    """Returns the lines that `check` prints about a configuration."""
    done = subprocess.run([program, "check"], input=json.dumps(value).encode(), capture_output=True, check=False)
    return done.stdout.decode().splitlines()


def without_derived(value):
    """Returns a configuration without listed points and conflicts."""
    return {**value, "routes": [{**route, "points": [], "conflicts": []} for route in value["routes"]]}


def pairs_of(value):
    """Returns the pairs of routes that list each other."""
    numbers = {route["name"]: number for number, route in enumerate(value["routes"])}
    listed = {(i, numbers[name]) for i, route in enumerate(value["routes"]) for name in route["conflicts"]}
    return {(i, j) for i, j in listed if i < j and (j, i) in listed}


def without_pairs(value, pairs):
    """Returns a configuration without both entries of these pairs."""
    value = copy.deepcopy(value)
    names = [route["name"] for route in value["routes"]]
    for i, j in itertools.chain(pairs, [(j, i) for i, j in pairs]):
        value["routes"][i]["conflicts"].remove(names[j])
    return value


def result_faults(program, old, found):
    """Yields the faults of a filled table."""
    lines = check(program, found.value)
    wrong = [line for line in lines if line.startswith(("refused C5", "refused C6", "refused C8"))]
    yield from wrong[:3]
    said = " ".join(found.decisions + found.wrong)
    for line in lines:
        if line.startswith("refused C3"):
            name = found.value["routes"][int(line.split("[")[1].rstrip("]"))]["name"]
            if f"route {name}" not in said:
                yield f"{line}, and nothing is said of {name}"
    for route, new in zip(old["routes"], found.value["routes"]):
        kept = [one for one in new["points"] if one in route["points"]] == route["points"]
        if not kept or not set(route["conflicts"]) <= set(new["conflicts"]):
            yield f"route {route['name']}: an entry was removed"
        if {**route, "points": 0, "conflicts": 0} != {**new, "points": 0, "conflicts": 0}:
            yield f"route {route['name']}: another column was changed"


def pair_faults(program, old, new, alone):
    """Yields the derived pairs without which `check` does not answer C6 or C8: all at once, some
    individually."""
    derived = sorted(pairs_of(new) - {(min(pair), max(pair)) for pair in typed_pairs(old)})
    refused = refused_pairs(check(program, without_pairs(new, derived)))
    yield from (f"pair {pair} is missing, and check does not say so" for pair in derived
                if pair not in refused)
    for pair in alone(derived):
        if refused_pairs(check(program, without_pairs(new, [pair]))) != {pair}:
            yield f"pair {pair} alone is missing, and check does not say so"


def typed_pairs(value):
    """Returns the pairs of routes of which one lists the other."""
    numbers = {route["name"]: number for number, route in enumerate(value["routes"])}
    return {(i, numbers[name]) for i, route in enumerate(value["routes"]) for name in route["conflicts"]}


def refused_pairs(lines):
    """Returns the pairs that `check` refuses by C6 or C8."""
    found = [PAIR.fullmatch(line) for line in lines]
    return {tuple(sorted((int(one[2]), int(one[3])))) for one in found if one and one[1] != "C5"}


def check_bay_station(program, _):
    """The typed station is refused. Filled, it is the clean one of tests/plants, but refused
    without any one pair of conflicts."""
    value = reading.read_directory(TYPED)
    kept = json.loads(BAY.read_text(encoding="utf-8"))
    found = filling.filled(value, BOTH)
    if len(check(program, value)) < 100 or any(route["conflicts"] for route in value["routes"]):
        yield "the typed station is not refused as it should be"
    if found.value != kept or check(program, kept) != ["clean"] or found.decisions or found.wrong:
        yield f"another table, or not clean: {check(program, found.value)[:3]}"
    yield from pair_faults(program, value, kept, lambda derived: derived)
    sizes = len(kept["sections"]), sum(one["kind"] == "point" for one in kept["sections"]), len(
        Plant(kept).boards), sum(bool(one["overlap"]) for one in kept["routes"])
    if sizes != (25, 11, 17, 16):
        yield f"another station: {sizes}"


def check_plants(program, _):
    """Examples, plants and generated stations are filled correctly without conflicts and points."""
    count = 0
    for name, given in plants().items():
        value = without_derived(json.loads(given))
        if filling.hindrances(check(program, value)) or name == "largest":
            continue
        count += 1
        found = filling.filled(value, BOTH)
        yield from (f"{name}: {fault}" for fault in result_faults(program, value, found))
        yield from (f"{name}: {fault}" for fault in pair_faults(
            program, value, found.value, lambda derived: derived[:20]))
        if check(program, json.loads(given)) == ["clean"] and not found.decisions \
                and check(program, found.value) != ["clean"]:
            yield f"{name}: it was clean, and is not"
    if count < 20:
        yield f"only {count} plants were filled"


def check_random(program, _):
    """500 random tables are filled correctly."""
    decided = wrong = 0
    for seed, value in random_tables.tables(RANDOM):
        chance = random.Random(seed)
        found = filling.filled(value, BOTH)
        decided, wrong = decided + len(found.decisions), wrong + len(found.wrong)
        yield from (f"table {seed}: {fault}" for fault in result_faults(program, value, found))
        yield from (f"table {seed}: {fault}" for fault in pair_faults(
            program, value, found.value, lambda derived: chance.sample(derived, min(1, len(derived)))))
        if filling.filled(found.value, BOTH).value != found.value:
            yield f"table {seed}: filled again, it changes"
    if decided < 50:
        yield f"only {decided} decisions are left"


def check_demanded(program, _):
    """`check` accepts a table without undemanded entries, and exactly these are reported."""
    for seed, value in random_tables.tables(60):
        found = filling.filled(value, BOTH, True)
        plant = Plant(found.value)
        extra = pairs_of(found.value) - set(demanded(plant))
        lines = check(program, without_pairs(found.value, extra))
        if any(line.startswith(("refused C5", "refused C6", "refused C8")) for line in lines):
            yield f"table {seed}: {lines[:2]}"
        listed = {tuple(sorted(pair)) for pair in typed_pairs(value)} - set(demanded(plant))
        said = {tuple(sorted(map(plant.route_named.get, re.findall(r"g[0-9]+", line)[:2])))
                for line in found.extra}
        if said != listed:
            yield f"table {seed}: named are {said ^ listed}"


# -- single entries, derived by hand

LADDER = """linear a . p . A
point p up a b q
linear b p c . B
linear c b . C .
point q up p d e
linear d q . D .
linear e q f . E
linear f e . F ."""
FACING_END = """linear a . b . A
linear b a p . B
point p up b d e
linear d p . D .
linear e p . E ."""


def check_by_hand(_, __):
    """Point positions equal hand-derived ones: on the path, on the overlap, at its end, wrong ones,
    and a gap."""
    decide = "route r: its overlap "
    for network, route, points, decisions, wrong in [
            (LADDER, "from A to B path p b overlap c", "p+", [], []),
            (LADDER, "from A to E path p q e overlap f", "p- q-", [], []),
            (LADDER, "from A to E path p q e points q=plus p=minus", "q+ p-", [],
             ["route r lists q+, and its path needs q-; the entry was not changed"]),
            (LADDER, "from D to . path q p a", "q+ p-", [], []),
            (LADDER, "from C to . path b overlap p a", "p+", [], []),
            (LADDER, "from C to . path b overlap p a points p=minus", "p-", [],
             ["route r lists p-, and its overlap needs p+; the entry was not changed"]),
            (LADDER, "from A to B path b overlap q", "",
             [f"{decide}does not lead over the points q (rule C4)"], []),
            (FACING_END, "from A to B path b overlap p", "",
             [f"{decide}ends at the points p, which a train meets facing: p+ or p-"], []),
            (FACING_END, "from A to B path b overlap p points p=minus", "p-", [], []),
            (FACING_END, "from A to B path b overlap p e", "p-", [], [])]:
        value = json.loads(configurations.plant_text([*network.splitlines(), "version 2", f"route r {route}"]))
        found = filling.filled(value, ["points"])
        said = " ".join(map(point_word, found.value["routes"][0]["points"]))
        if (said, found.decisions, found.wrong) != (points, decisions, wrong):
            yield f"{route}: {said}, {found.decisions}, {found.wrong}"


def check_order(_, __):
    """Entries are added in table order if the listed ones are in that order, otherwise after them."""
    station = json.loads((TOP / "examples/station.json").read_text(encoding="utf-8"))
    whole = station["routes"][0]["conflicts"]
    for listed, wanted in ((["r5"], whole), (["r8", "r5"], ["r8", "r5", "r2", "r7"]), ([], whole)):
        station["routes"][0]["conflicts"] = listed
        found = filling.filled(station, ["conflicts"]).value["routes"][0]["conflicts"]
        if found != wanted:
            yield f"{listed}: {found}"


# -- calls

def check_calls(program, _):
    """The result goes to standard output, a new directory, or over the input. The comparison, the
    decisions and check's answer are printed."""
    given = BAY.read_bytes()
    bare = json.dumps(without_derived(json.loads(given))).encode()
    with tempfile.TemporaryDirectory(prefix="irv-fill-") as room:
        Path(room, "bare.json").write_bytes(bare)
        out = call(program, ["--fill", "conflicts,points"], bare, room)
        if json.loads(out.stdout) != json.loads(given) or not out.stderr.endswith(b"irv check: clean\n"):
            yield f"to standard output: {out.stderr[-300:]}"
        new = call(program, ["--fill", "conflicts,points", "bare.json", "--out", "new"], b"", room)
        if reading.read_directory(Path(room, "new")) != json.loads(given) or new.stdout != out.stderr:
            yield f"to a directory: {new.stderr[-300:]}"
        over = call(program, ["--fill", "conflicts,points", "--write", "bare.json"], b"", room)
        if json.loads(Path(room, "bare.json").read_text(encoding="utf-8")) != json.loads(given) \
                or over.stdout != out.stderr or over.returncode:
            yield f"over a file: {over.stderr[-300:]}"
        writing.write_directory(json.loads(bare), Path(room, "old"))
        both = call(program, ["--fill", "conflicts,points", "--in", "old", "--write"], b"", room)
        if reading.read_directory(Path(room, "old")) != json.loads(given) or both.stdout != out.stderr:
            yield f"over CSV files: {both.stderr[-300:]}"
        one = call(program, ["--fill", "points"], bare, room)
        if any(route["conflicts"] for route in json.loads(one.stdout)["routes"]) \
                or not re.search(rb"\nfilled: points [1-9][0-9]*\nirv check: refused C6 ", one.stderr):
            yield f"points alone: {one.stderr[-300:]}"
        if sorted(path.name for path in Path(room).iterdir()) != ["bare.json", "new", "old"]:
            yield "other files are left"


def check_refused(program, _):
    """If F, N, R, C1 or C2 is broken, check's lines are printed, and nothing is written."""
    cases = {"four-sections.json": ["refused C1 routes[0]", "refused C2 routes[0]"]}
    station = json.loads((TOP / "examples/station.json").read_text(encoding="utf-8"))
    station["routes"][0]["conflicts"].append("nothing")
    for name, lines in [*cases.items(), (None, ["refused R6 routes[0]"])]:
        given = json.dumps(station).encode() if name is None else (TOP / "examples" / name).read_bytes()
        with tempfile.TemporaryDirectory(prefix="irv-fill-") as room:
            Path(room, "conf").write_bytes(given)
            done = call(program, ["--fill", "points", "conf", "--write"], b"", room)
            wanted = ["irv --csv: nothing is filled: the rules F, N, R, C1 and C2 have to hold, and irv "
                      "check answers", *lines]
            if (done.stderr.decode().splitlines(), done.stdout, done.returncode) != (wanted, b"", 125):
                yield f"{name}: {done.stderr} {done.stdout}"
            if Path(room, "conf").read_bytes() != given:
                yield f"{name}: the file was changed"


FillingTests = test_case("FillingTests", [
    check_bay_station, check_plants, check_random, check_demanded, check_by_hand, check_order,
    check_calls, check_refused])
