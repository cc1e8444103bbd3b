"""Tests of importing mutated maps: no crash, no other access, and limits."""

import bz2
import gzip
import json
import os
import random
import re
import subprocess
import sys
import tempfile
from pathlib import Path

from irvtools.paths import TOOLS
from tests.importing.layout_tests import LAYOUT, net
from tests.importing.small_maps import LOOP_NODES, LOOP_WAYS, osm
from tests.support.harness import test_case

TAKES_LONG = True

WATCHED = Path(__file__).with_name("watched_import.py")
SECONDS, MEBIBYTES = 10, 500
MUTANTS, LONG_MUTANTS = 60, 500
SEED = 76
BOMB = ("<!DOCTYPE osm [<!ENTITY a 'aaaaaaaaaa'>" + "".join(
    f"<!ENTITY {chr(98 + n)} '{f'&{chr(97 + n)};' * 10}'>" for n in range(9)) + "]>")
EXTERNAL = "<!DOCTYPE osm [<!ENTITY x SYSTEM 'secret.txt'>]>"
REMOTE = "<!DOCTYPE osm SYSTEM 'http://192.0.2.1/osm.dtd'>"


def station(count):
    """Returns the map of some passing loops in a row."""
    nodes, ways, tags = {}, {}, {}
    for number in range(count):
        for key, (lat, lon) in LOOP_NODES.items():
            nodes[f"{10 * number + int(key)}"] = (lat, round(lon + 0.02 * number, 6))
        for key, refs in LOOP_WAYS.items():
            ways[f"{100 * number + int(key)}"] = [f"{10 * number + int(one)}" for one in refs]
        if number:
            ways[f"{100 * number}"] = [f"{10 * number - 6}", f"{10 * number + 1}"]
        tags[f"{10 * number + 2}"] = {"railway": "switch", "ref": f"W{number}"}
    return osm(nodes, ways, tags)


def cut_way(text, chance):
    """Removes a node from a way, or a way from the map."""
    lines = text.split("\n")
    place = chance.choice([n for n, line in enumerate(lines) if line.startswith("<way")])
    if chance.random() < 0.3:
        del lines[place]
    else:
        lines[place] = re.sub(r"<nd ref='\d+'/>", "", lines[place], count=1)
    return "\n".join(lines)


def doubled(text, chance):
    """Doubles a node or a way."""
    lines = text.split("\n")
    place = chance.choice([n for n, line in enumerate(lines) if line[:4] in ("<nod", "<way")])
    return "\n".join(lines[:place] + [lines[place]] + lines[place:])


def joined(text, chance):
    """Leads a way over another node."""
    nodes = re.findall(r"<node id='(\d+)'", text)
    places = [found.start() for found in re.finditer("<nd ", text)]
    place = chance.choice(places)
    return text[:place] + f"<nd ref='{chance.choice(nodes)}'/>" + text[place:]


def any_tags(text, chance):
    """Gives an object tags with any characters."""
    place = chance.choice([found.start() for found in re.finditer("<tag ", text)])
    value = "".join(chance.choice("aZ0&;\t é€\U0001f682\u202e=\"<") for _ in range(40))
    value = re.sub("[&<'\"]", lambda found: f"&#{ord(found[0])};", value)
    key = chance.choice(("ref", "railway:track_ref", "railway:signal:main", "railway"))
    return text[:place] + f"<tag k='{key}' v='{value}'/>" + text[place:]


def any_bytes(text, chance):
    """Changes some bytes."""
    data = bytearray(text.encode())
    for _ in range(chance.randint(1, 8)):
        data[chance.randrange(len(data))] = chance.randrange(256)
    return bytes(data)


def other_objects(text, chance):
    """Adds 10 MB of objects other than tracks."""
    pad = "".join(f"<node id='{10 ** 6 + n}' lat='1' lon='1'><tag k='a' v='b'/></node>\n"
                  for n in range(150_000 + chance.randrange(20_000)))
    return text.replace("<node", pad + "<node", 1)


def entities(text, chance):
    """Declares entities: a bomb, an external file or a server's document type."""
    kind = chance.choice((BOMB, EXTERNAL, REMOTE))
    used = text.replace("v='rail'", "v='&j;'" if kind == BOMB else "v='&x;'", 1)
    return used.replace("<osm", kind + "<osm", 1)


def truncated(text, chance):
    """Truncates an archive."""
    pack = chance.choice((gzip.compress, bz2.compress))
    data = pack(text.encode())
    return data[:chance.randrange(1, len(data))], ".gz" if pack is gzip.compress else ".bz2"


def moved(text, chance):
    """Changes a number of the map."""
    numbers = list(re.finditer(r"-?\d+(\.\d+)?", text))
    found = chance.choice(numbers)
    value = chance.choice(("0", "-1", "1e309", "nan", "", "9" * 30, str(chance.randrange(200))))
    return text[:found.start()] + value + text[found.end():]


MUTATIONS = (cut_way, doubled, joined, any_tags, any_bytes, entities, truncated, moved)


def mutants(count):
    """Yields mutated maps, each with the names of its mutation and file."""
    chance = random.Random(SEED)
    texts = {".osm": station(3), ".net.xml": net(), ".xtc": LAYOUT}
    for number in range(count):
        mutation = other_objects if number % 50 == 49 else MUTATIONS[number % len(MUTATIONS)]
        suffix = ".osm" if mutation not in (any_bytes, moved, truncated) else \
            chance.choice(tuple(texts))
        made = mutation(texts[suffix], chance)
        data, packed = made if isinstance(made, tuple) else (made, "")
        yield (f"mutant {number} ({mutation.__name__})", f"map{suffix}{packed}",
               data if isinstance(data, bytes) else data.encode("utf-8", "surrogatepass"))


def watched(program, room, name):
    """Imports a file under watch. Returns the record and the error output."""
    result = Path(room, "seen.json")
    done = subprocess.run([sys.executable, str(WATCHED), str(result), str(Path(room, name)),
                           "--out", str(Path(room, "out.json")), "--program", str(program)],
                          capture_output=True, text=True, errors="replace", timeout=120,
                          env={**os.environ, "TMPDIR": str(room), "PYTHONPATH": str(TOOLS)}, check=False)
    seen = json.loads(result.read_text(encoding="utf-8")) if result.exists() else None
    return seen, done.stderr


def faults_of(program, room, name, data):
    """Yields the faults of one file's import."""
    for path in Path(room).iterdir():
        path.unlink()
    Path(room, name).write_bytes(data)
    Path(room, "secret.txt").write_text("secret", encoding="utf-8")
    seen, errors = watched(program, room, name)
    if seen is None:
        yield f"a crash: {errors[-300:]}"
        return
    if seen["seconds"] > SECONDS or seen["mebibytes"] > MEBIBYTES:
        yield f"{seen['seconds']:.1f} s, {seen['mebibytes']:.0f} MiB"
    library = (sys.base_prefix, sys.prefix, str(WATCHED.parents[2] / "tools/irvtools"))
    yield from (f"opens {path}" for path in seen["opened"] if not path.startswith(library)
                and (not path.startswith(str(room)) or path.endswith("secret.txt")))
    yield from (f"reaches {one}" for one in seen["other"] if one != f"calls {program}")
    there = sorted(path.name for path in Path(room).iterdir()
                   if path.name not in (name, "secret.txt", "seen.json"))
    wrote = [] if seen["status"] else ["out.json", "out.notes.json"]
    if there != wrote or seen["status"] not in (0, 125):
        yield f"status {seen['status']}, files {there}"
    if seen["status"]:
        lines = errors.rstrip("\n").split("\n")
        is_placed = re.search(r"line \d+|(way|node|track|edge|junction) [-\w]+|cannot read", errors)
        if len(lines) != 1 or not lines[0].startswith("irv --import: ") or not (
                is_placed or "no track" in errors):
            yield f"a message without a place: {errors[:300]}"


def check_mutants(program, is_long):
    """Mutated maps are imported or refused with a place, within 10 s and 500 MiB. Nothing else is
    read."""
    with tempfile.TemporaryDirectory(prefix="irv-import-") as room:
        for what, name, data in mutants(LONG_MUTANTS if is_long else MUTANTS):
            yield from (f"{what}: {fault}" for fault in faults_of(program, room, name, data))


def check_bombs(program, _):
    """Files of unlimited growth are refused within the limits."""
    head = b"<osm version='0.6'>"
    bombs = {"a.osm.bz2": bz2.compress(head + b" " * (200 << 20)),
             "b.osm.gz": gzip.compress(head + b"<node/>" * (8 << 20), 1),
             "c.osm.gz": gzip.compress(head + b"<a>" * (1 << 20), 1),
             "d.osm.gz": gzip.compress(head + b"<node a='" + b"x" * (64 << 20) + b"'/>", 1),
             "e.osm.gz": gzip.compress(head + b"<way id='1'>" + b"<nd ref='1'/>" * (3 << 20), 1),
             "f.xtc.gz": gzip.compress(b"STRAIGHT 1" + b" 1" * (16 << 20), 1),
             "g.net.xml.gz": gzip.compress(b"<net>" + b"<junction id='a'/>" * (3 << 20), 1)}
    with tempfile.TemporaryDirectory(prefix="irv-import-") as room:
        for name, data in bombs.items():
            yield from (f"{name}: {fault}" for fault in faults_of(program, room, name, data))


def check_worst(program, _):
    """The largest readable map of unknown objects stays within the limits."""
    ways = "".join(f"<way id='{9 * 10 ** 6 + n}'><nd ref='1'/><nd ref='2'/><tag k='a' v='b'/></way>"
                   for n in range(550_000))
    text = osm(after=ways)
    with tempfile.TemporaryDirectory(prefix="irv-import-") as room:
        yield from faults_of(program, room, "large.osm.gz", gzip.compress(text.encode(), 1))


MutationTests = test_case("MutationTests", [check_mutants, check_bombs, check_worst])
