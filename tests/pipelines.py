"""Tests commands that read each other's output.

- `make` prints for 1 to 16 stations what `irvtools/generators/configurations.py` writes. `check`
  finds it clean.
- `demo` prints the same line and writes the same certificate each time. `audit` accepts it.
- `table` prints the routes, or the refusal, of `irvtools/generators/route_tables.py` for each plant
  of `examples/` and each random network. `check` finds its output clean, except for C7 with free
  columns. `table` of its own output prints it again.
- `drive` prints what `support/drive_model.py` finds, over those plants and their tables, for random
  scenarios. `replay` of the printed run shows its hazard, or none.
"""

import collections
import json
import random
import tempfile
import threading
from concurrent.futures import ThreadPoolExecutor
from pathlib import Path
from tests.support import case_files
from irvtools.generators import configurations
from tests.support import drive_model
from tests.support import random_networks
from tests.support import program as programs
from irvtools.generators import route_tables
from tests.support.harness import ProgramTest

AT_ONCE = 4
NETWORKS = 60
MANY_NETWORKS = 10000
SCENES = 8              # per plant
MOST_COMMANDS = 24
LONG_LINE, LONG_SCENE = 60, 900     # sections, and trains that run through them in turn
SHOWN_BYTES = 300


class Calls:
    """Calls of the program in a directory, each with its own files."""

    def __init__(self, program, directory):
        self.program, self.directory = program, directory

    def path(self, name):
        """Returns a file of this thread."""
        return self.directory / f"{name}-{threading.get_ident()}"

    def call(self, words, given=b""):
        """Returns the output and the status. The output includes standard error."""
        words = [str(word) for word in words]
        output, errors, status = programs.call(self.program, words, given, self.directory)
        return output + errors, status

    def fault(self, words, given, wanted, status):
        """Returns the fault of an answer, or nothing."""
        got = self.call(words, given)
        if got == (wanted, status):
            return []
        shown = [text[:SHOWN_BYTES] for text in (wanted, got[0])]
        return [f"{' '.join(map(str, words))}: wanted {shown[0]!r} with {status}, "
                f"got {shown[1]!r} with {got[1]}"]


def make_faults(calls, count):
    """Yields the faults of make's stations."""
    wanted = configurations.stations_text(count, "printed")
    yield from calls.fault(["make", "--stations", count], b"", wanted, 0)
    yield from calls.fault(["check"], wanted, b"clean\n", 0)


def demo_faults(calls, count):
    """Yields the faults of two demonstrations of `count` stations."""
    line = f"stations={count} sections={5 * count + 1} routes={8 * count} safe k=1\n".encode()
    written = []
    for _ in range(2):
        yield from calls.fault(["demo", "--stations", count, "--cert", calls.path("demo")], b"", line, 0)
        written.append(calls.path("demo").read_bytes())
    if written[0] != written[1]:
        yield f"two certificates of a demonstration of {count} stations differ"
    stations = configurations.stations_text(count, "printed")
    yield from calls.fault(["audit", "--cert", calls.path("demo")], stations, b"accepted k=1\n", 0)


def borders_broken(sections):
    """Yields the lines of C7: borders without boards for entering trains."""
    for number, section in enumerate(sections):
        if section["kind"] == "linear" and (section["down"] is None) != (section["up"] is None):
            inward = "up" if section["down"] is None else "down"
            if section["board_" + inward] is None:
                yield f"refused C7 sections[{number}]\n"


def table_faults(calls, network):
    """Yields the faults of a network's table."""
    given = json.dumps(network).encode()
    broken = list(borders_broken(network["sections"]))
    found = route_tables.routes(network)
    for columns in ("strict", "free"):
        words = ["table", "--columns", columns]
        if columns == "strict" and broken:
            yield from calls.fault(words, given, broken[0].encode(), 5)
        elif isinstance(found, str):
            yield from calls.fault(words, given, f"refused {found}\n".encode(), 5)
        else:
            wanted = configurations.printed(route_tables.with_routes(network))
            yield from calls.fault(words, given, wanted, 0)
            yield from calls.fault(words, wanted, wanted, 0)
            yield from calls.fault(["check", "--columns", columns], wanted, b"clean\n", 0)
            if broken and columns == "free":
                yield from calls.fault(["check"], wanted, "".join(broken).encode(), 5)


def scenes_of(document, seed):
    """Yields random scenarios: mostly entries at borders and marked routes, some cancelled routes."""
    chance = random.Random(seed)
    sections = [section["name"] for section in document["sections"]]
    borders = [section["name"] for section in document["sections"]
               if section["kind"] == "linear" and (section["down"] is None) != (section["up"] is None)]
    routes = [route["name"] for route in document["routes"]]
    kinds = [("enter", borders)] * 6 + [("enter", sections)] + [("mark", routes)] * 8 + [("cancel", routes)]
    kinds = [(word, names) for word, names in kinds if names]
    for _ in range(SCENES):
        lines = []
        for _ in range(chance.randrange(MOST_COMMANDS)):
            word, names = chance.choice(kinds)
            lines.append(f"{word} {chance.choice(names)}")
        yield used_up(document, lines, chance)


def used_up(document, lines, chance):
    """Returns the commands, usually without those that stop the drive."""
    while lines and chance.randrange(12):
        _, text = drive_model.answer(document, lines)
        words = text.split(" steps=")[0].split()
        if words[0] != "stuck" or int(words[2]) > len(lines):
            break
        del lines[int(words[2]) - 1]
    return lines


def replayed_faults(calls, given, text):
    """Yields the faults of replay's answers to a drive's run."""
    first, _, run = text.partition("\n")
    hazard = first.partition(" steps=")[0] if first.startswith("hazard") else None
    calls.path("run").write_text(run)
    words = ["replay", "--columns", "free", "--run", calls.path("run")]
    yield from calls.fault(words, given, f"{hazard or 'no hazard'}\n".encode(), 0 if hazard else 6)


def drive_faults(calls, document, seed, counted):
    """Yields the faults of drives over a plant."""
    given = json.dumps(document).encode()
    for lines in scenes_of(document, seed):
        kind, text = drive_model.answer(document, lines)
        calls.path("scene").write_text(drive_model.scene(lines))
        words = ["drive", "--columns", "free", "--run", calls.path("scene")]
        for fault in calls.fault(words, given, text.encode(), drive_model.STATUS_OF[kind]):
            yield f"{fault} over {given.decode()} and {lines}"
        yield from replayed_faults(calls, given, text)
        counted[kind] += 1


def long_drive_faults(calls):
    """Yields the faults of a drive whose run is near replay's greatest length."""
    names = [f"s{i}" for i in range(LONG_LINE)]
    one = [f"enter {names[0]}", *(f"head {name}" for name in names[:-1]),
           *(f"tail {name}" for name in names[:-1]), f"leave {names[-1]}"]
    events = one * LONG_SCENE
    text = "".join(f"{line}\n" for line in [f"driven steps={len(events)}", "run 1", "start", *events, "end"])
    calls.path("scene").write_text(drive_model.scene([one[0]] * LONG_SCENE))
    given = configurations.made_line(LONG_LINE)
    words = ["drive", "--columns", "free", "--run", calls.path("scene")]
    yield from calls.fault(words, given, text.encode(), 0)
    yield from replayed_faults(calls, given, text)


def drives_faults(calls, document, seed, counted):
    """Yields the faults of drives over a network and over its table."""
    plants = [document]
    if not isinstance(route_tables.routes(document), str):
        plants.append(route_tables.with_routes(document))
    for place, one in enumerate(plants):
        yield from drive_faults(calls, one, 2 * seed + place, counted)


def documents(count):
    """Yields the plants of the examples, generated stations and `count` random networks: a name, the
    configuration, and the seed of its scenarios."""
    for number, path in enumerate(sorted(case_files.EXAMPLES.glob("*.json"))):
        yield path.stem, json.loads(path.read_text()), -1 - number
    for stations in (1, 2, 4):
        yield f"stations {stations}", json.loads(configurations.stations_text(stations)), stations
    for seed in range(count):
        yield f"network {seed}", random_networks.network(seed)[0], seed


def tasks(calls, count):
    """Yields named tests, each with its faults."""
    for stations in range(1, 17):
        yield f"make {stations}", make_faults(calls, stations)
    for stations in (1, 2, 3):
        yield f"demo {stations}", demo_faults(calls, stations)
    yield "a long drive", long_drive_faults(calls)
    for name, document, _ in documents(count):
        yield name, table_faults(calls, document)


def faults_of(every):
    """Returns the faults of tasks, of which some run at once."""
    with ThreadPoolExecutor(AT_ONCE) as pool:
        return [f"{name}: {fault}" for (name, _), found in
                zip(every, pool.map(lambda task: list(task[1]), every)) for fault in found]


class PipelineTests(ProgramTest):
    """Tests of commands that read each other's output."""

    def test_tasks(self):
        """Each task passes."""
        with tempfile.TemporaryDirectory(prefix="irv-pipelines-") as directory:
            every = list(tasks(Calls(self.program, Path(directory)), self.networks()))
            self.see(faults_of(every), len(every))

    def test_drives(self):
        """Each drive is that of the independent model, and drives come to each kind of rest."""
        every = [(*one, collections.Counter()) for one in documents(self.networks())]
        with tempfile.TemporaryDirectory(prefix="irv-pipelines-") as directory:
            calls = Calls(self.program, Path(directory))
            faults = faults_of([(name, drives_faults(calls, document, seed, counted))
                                for name, document, seed, counted in every])
        counted = sum((one[-1] for one in every), collections.Counter())
        faults += [f"no drive came to {kind}" for kind in drive_model.STATUS_OF if not counted[kind]]
        self.see(faults, sum(counted.values()))

    def networks(self):
        """Returns the number of random networks."""
        return MANY_NETWORKS if self.is_long else NETWORKS
