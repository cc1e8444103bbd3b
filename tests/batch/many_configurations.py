"""Benchmark with hundreds of configurations: plain calls one by one and four at once, then a batch.
It compares their times. A second call may ask nothing, and after one change only one configuration
may be asked about. It does not run in CI and needs an idle machine.

The configurations are the examples, a station of tests/plants, generated stations, and lines of
real size with and without random protection. Each also comes with a single fault. The questions
are the broken rules, the verdict with free columns and an eighth of the usual conflicts, and its
certificate's audit. It takes about twenty minutes.
"""

import concurrent.futures
import copy
import json
import os
import random
import resource
import subprocess
import time

from irvtools.generators.configurations import stations_text
from tests.batch.workspace import EXAMPLES, TOP, differs
from tests.support.random_faults import FAULTS, with_fault, with_protection
from tests.support.real_size_lines import NETWORKS, with_routes

OF_VERIFY = ("--columns", "free", "--conflicts", "12000")
QUESTIONS = ("check", " ".join(("verify", *OF_VERIFY)), "audit")
CORES = 4
MOST_STATIONS = 12
MOST_RATIO, MOST_SECONDS = 1.2, 10


def right_ones(program):
    """Yields faultless configurations with their names, without end."""
    for path in (*sorted(EXAMPLES.glob("*.json")), TOP / "tests/plants/s.json"):
        yield path.stem, json.loads(path.read_bytes())
    for count in range(1, MOST_STATIONS + 1):
        yield f"stations {count}", json.loads(stations_text(count))
    lines = {name: with_routes(program, network()) for name, network in NETWORKS.items()}
    yield from lines.items()
    number = 0
    while True:
        for name, line in lines.items():
            yield f"{name} {number}", with_protection(line, random.Random(f"{name} {number}"))
        number += 1


def with_a_fault(name, document):
    """Returns a document with a single fault that depends only on the name, or `None` without
    routes. Not every fault fits every document."""
    chance, second = random.Random(name), copy.deepcopy(document)
    second["version"] = 2
    for route in second["routes"]:
        route.setdefault("protecting_points", [])
        route.setdefault("protecting_boards", [])
    kinds = chance.sample(sorted(FAULTS), len(FAULTS)) if second["routes"] else []
    for kind in kinds:
        got = with_fault(second, kind, chance)
        if got:
            return got[0]
    return None


def fill(room, count):
    """Writes `count` configurations, half of them with faults."""
    made = set()
    for name, document in right_ones(str(room.true_program)):
        for title, value in ((name, document), (f"{name}, a fault", with_a_fault(name, document))):
            if value is not None and len(made) < count:
                (room.directory / f"{title}.json").write_text(json.dumps(value), encoding="ascii")
                made.add(title)
        if len(made) == count:
            return


def used():
    """Returns the wall-clock time and the called processes' CPU seconds."""
    children = resource.getrusage(resource.RUSAGE_CHILDREN)
    return time.monotonic(), children.ru_utime + children.ru_stime


def by_plain_calls(room, path):
    """Asks about one configuration by plain calls."""
    certificate = str(room.room / f"{path.stem}.certificate")
    for words in (["check"], ["verify", *OF_VERIFY, "--cert", certificate],
                  ["audit", "--columns", "free", "--cert", certificate]):
        with open(path, "rb") as given:
            done = subprocess.run([str(room.true_program), *words], stdin=given, check=False,
                                  stdout=subprocess.PIPE)
        if words[0] == "verify" and not done.stdout.startswith(b"safe "):
            break


def plain(room, at_once):
    """Asks about each configuration by plain calls, `at_once` in parallel. Returns the time used."""
    begin = used()
    with concurrent.futures.ThreadPoolExecutor(at_once) as pool:
        list(
            pool.map(lambda path: by_plain_calls(room, path),
                     sorted(room.directory.glob("*.json"))))
    return [now - before for now, before in zip(used(), begin)]


def in_a_batch(room):
    """Asks about all configurations in a batch. Returns the call and the time used."""
    begin = used()
    words = [word for question in QUESTIONS for word in ("--ask", question)]
    done = room.call(*words, "--cores", str(CORES))
    return done, [now - before for now, before in zip(used(), begin)]


def compare(room):
    """Prints the times of plain calls and a batch. Yields a fault if the batch is too slow."""
    one = plain(room, 1)
    print(f"plain calls, one after the other: {one[0]:.1f} s, {one[1]:.1f} CPU seconds", flush=True)
    best = plain(room, CORES)
    print(f"plain calls, {CORES} at once: {best[0]:.1f} s, {best[1]:.1f} CPU seconds: "
          f"{best[0] * CORES / one[0]:.2f} times the sum over {CORES}", flush=True)
    done, all_ = in_a_batch(room)
    ratio = all_[0] * CORES / one[0]
    print(f"batch: {all_[0]:.1f} s, {all_[1]:.1f} CPU seconds: {ratio:.2f} times the sum over "
          f"{CORES}, {all_[0] / best[0]:.2f} times plain calls, and {all_[1] / one[1]:.2f} times "
          f"their CPU seconds\n{done.stdout.strip()}", flush=True)
    if ratio >= MOST_RATIO:
        yield (f"{ratio:.2f} times the sum of the times over {CORES}; less than {MOST_RATIO} is "
               "expected")


def measure(room, count):
    """Runs the benchmark with `count` configurations. Yields the faults."""
    fill(room, count)
    found = len(list(room.directory.glob("*.json")))
    yield from differs("configurations", found, count)
    print(f"{found} configurations; {os.getloadavg()[0]:.1f} other processes are at work",
          flush=True)
    yield from compare(room)
    again, took = in_a_batch(room)
    print(f"again {took[0]:.1f} s", flush=True)
    if took[0] >= MOST_SECONDS or " 0 jobs were done" not in again.stdout:
        yield f"again: {took[0]:.1f} s, {again.stdout}{again.stderr}"
    path = room.directory / "station.json"
    value = json.loads(path.read_bytes())
    value["routes"].pop()
    path.write_text(json.dumps(value), encoding="ascii")
    changed, took = in_a_batch(room)
    print(f"one changed {took[0]:.1f} s", flush=True)
    yield from differs("one changed", changed.stdout.split("; ")[1].partition(",")[0],
                       f"{len(QUESTIONS)} jobs were done")
    yield from differs("verified", room.verify()[0], 0)
