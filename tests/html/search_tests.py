"""Tests of the search: found and impossible hazards, and the end of its processes."""

import json
import os
import signal
import subprocess
import sys
import time
from pathlib import Path

from irvtools.generators import configurations
from irvtools.model import events
from tests.support import fifteen_section_line
from irvtools.calls.interruption import Interrupted, interruptible
from irvtools.calls.program import Program
from irvtools.search.parallel_search import Searchers
from irvtools.search.random_search import RandomSearch
from irvtools.model.plant import Plant
from irvtools.search.run_shortening import readable
from irvtools.model.bitset_events import Facts, Simulation, to_hazard
from irvtools.model.state import ROUTE_WORDS
from irvtools.paths import TOP
from tests.support.harness import test_case

ENDED = 60              # seconds after which an ended search has left a process behind
# a parent in the background may ignore SIGINT, which its children inherit
PARENT = """
import signal
signal.signal(signal.SIGINT, signal.default_int_handler)
from irvtools.model.plant import Plant
from irvtools.search.parallel_search import Searchers
from tests.support import fifteen_section_line
searchers = Searchers(Plant(fifteen_section_line.right()), count=3)
searchers.start(600)
print(*(process.pid for process in searchers.processes.values()), flush=True)
searchers.wait(600)
"""


def left_out(plant, run):
    """Yields the places of events that can be left out of a run, with those that are then not
    enabled, by the drawing model. Rears of trains, added for credible lengths, do not count."""
    for place in range(len(run)):
        if run[place][0] == "tail":
            continue
        trial = run[:place] + run[place + 1:]
        state = events.State(plant)
        if any(events.apply(plant, state, event) and events.hazard(plant, state) for event in trial):
            yield place


def run_faults(plant, run):
    """Yields the faults of a found run."""
    states = events.replayed(plant, run)
    if states is None or events.hazard(plant, states[-1]) is None:
        yield "what was found is no run to a hazard"
    yield from (f"event {place + 1} of {len(run)} can be left "
                f"out" for place in left_out(plant, run))


def check_search(_, is_long):
    """The search finds each possible hazard of a faulty table. No event of its run can be left out,
    except a train's rear."""
    for name, (_, is_possible, _) in fifteen_section_line.FAULTS.items():
        if not is_possible:
            continue
        plant = Plant(fifteen_section_line.with_fault(name))
        for seed in range(1, 9 if is_long else 2):
            run = RandomSearch(plant, seed).for_hazard(600, 6000)
            if run is None:
                yield f"{name}: nothing found with the seed {seed}"
            else:
                yield from (f"{name}: {fault}" for fault in run_faults(plant, run))


def check_search_cancel(_, __):
    """The search finds a hazard that needs the cancellation of an allocated route."""
    # h commands P to minus, and no train can reach its source; f does not list P
    plant = Plant(json.loads(configurations.plant_text([
        "linear a . P . aU", "point P up a b c", "linear b P . bD .", "linear c P d cD .",
        "linear d c . dD .", "route f from aU to . path P b",
        "route h from cD to . path P a points P=minus"])))
    for seed in (1, 2, 3):
        run = RandomSearch(plant, seed, [0]).for_hazard(600, 2000)
        if run is None:
            yield f"nothing found with the seed {seed}"
            continue
        yield from run_faults(plant, run)
        if ("cancel", 1) not in run:
            yield f"{run} comes to a hazard without a cancel"


def check_search_far(_, __):
    """A hazard ten routes away from the borders is found within some runs: amid nine stations a
    route lists a point wrongly."""
    document = json.loads(configurations.made("stations", "9"))
    fifteen_section_line.lists(document, "s5r2", "p5", "plus")
    plant = Plant(document)
    for seed in (1, 2, 3):
        run = RandomSearch(plant, seed, [plant.route_named["s5r2"]]).for_hazard(600, 60)
        if run is None:
            yield f"nothing found with the seed {seed}"
        else:
            yield from run_faults(plant, run)


def check_search_right(_, is_long):
    """The search finds nothing in tables that break no rule, or one on which safety does not
    depend."""
    found = {"line": fifteen_section_line.right(), "stations": json.loads(configurations.made("stations", "3")),
             "throat": json.loads((TOP / "examples/terminus-throat.json").read_text())}
    found.update({name: fifteen_section_line.with_fault(name) for name, fault in fifteen_section_line.FAULTS.items() if not fault[1]})
    for name, document in found.items():
        search = RandomSearch(Plant(document))
        while search.events < (200000 if is_long else 8000):
            if search.for_hazard(600, search.runs + 20) is not None:
                yield f"{name}: a run to a hazard"
                break


def check_shortening(_, __):
    """Events that do not contribute to the hazard are removed from a run anywhere."""
    plant = Plant(fifteen_section_line.with_fault("facing-point-wrong"))
    run = RandomSearch(plant, 2).for_hazard(600)
    routes = {number for word, number in run if word in ROUTE_WORDS}
    borders = {number for word, number in run if word == "enter"}
    idle = [(word, r) for r in range(len(plant.routes)) if r not in routes
            for word in ("mark", "cancel", "mark")]
    idle += [("enter", x) for x in plant.inward if x not in borders]
    padded = run[:-1]
    for place, event in enumerate(idle):
        padded.insert(place * 7 % len(run), event)
    padded.append(run[-1])
    longer = to_hazard(Simulation(Facts(plant)), padded)
    if longer is None or len(longer) < len(run) + 8:
        yield "nothing was put in"
    elif len(readable(Facts(plant), longer, 60)) > len(run):
        yield f"{len(run)} events became {len(longer)}, and aren't shortened again"


def longest_train(plant, run):
    """Returns the most sections that a train has in a run."""
    return max(len(body) for state in events.replayed(plant, run) for _, body in state.trains)


def check_credible_trains(_, __):
    """In a found run each train's rear follows its front: no train covers more than three sections,
    though trains pass more."""
    moves = 0
    for name in ("facing-point-wrong", "border-without-board", "path-ends-early"):
        plant = Plant(fifteen_section_line.with_fault(name))
        run = RandomSearch(plant, 1).for_hazard(600, 6000)
        moves = max(moves, sum(word == "head" for word, _ in run))
        yield from (f"{name}: {fault}" for fault in run_faults(plant, run))
        if longest_train(plant, run) > 3:
            yield f"{name}: a train of {longest_train(plant, run)} sections"
    if moves < 5:
        yield f"no run moves trains over more than {moves} sections"


def check_parallel_search(_, __):
    """Parallel searches find what one finds. They end with the first run, at their time limit, and
    if stopped."""
    plant = Plant(fifteen_section_line.with_fault("facing-point-wrong"))
    with Searchers(plant, count=3) as searchers:
        searchers.start(600)
        run = searchers.wait(600)
        if run is None or not searchers.is_over or searchers.found_by not in (1, 2, 3):
            yield f"{run}, over: {searchers.is_over}, found by {searchers.found_by}"
        else:
            yield from run_faults(plant, run)
            if RandomSearch(plant, searchers.found_by).for_hazard(600) != run:
                yield "the seed that found it doesn't find it again"
    right = Plant(fifteen_section_line.right())
    with Searchers(right, count=2) as searchers:
        searchers.start(2)
        if searchers.wait(600) is not None or not searchers.is_over or not searchers.events:
            yield f"over: {searchers.is_over}, {searchers.events} events"
    with Searchers(right, count=2) as searchers:
        searchers.start(600)
        if searchers.poll() is not None or searchers.is_over:
            yield "a search over a table that breaks no rule is over at once"
        pids = [process.pid for process in searchers.processes.values()]
    yield from (f"process {pid} is left after its searchers were stopped" for pid in alive(pids))


def check_processes_end(_, __):
    """The processes of a search end with their parent, however it ends."""
    where = {**os.environ, "PYTHONPATH": f"{TOP}:{TOP / 'tools'}"}
    for number in (signal.SIGINT, signal.SIGTERM, signal.SIGKILL):
        parent = subprocess.Popen([sys.executable, "-B", "-c", PARENT], env=where,
                                  stdout=subprocess.PIPE, stderr=subprocess.DEVNULL)
        pids = [int(word) for word in parent.stdout.readline().split()]
        parent.send_signal(number)
        parent.wait()
        parent.stdout.close()
        end = time.monotonic() + ENDED
        while alive(pids) and time.monotonic() < end:
            time.sleep(0.05)
        if len(pids) != 3:
            yield f"{len(pids)} processes were started"
        yield from (f"process {pid} is left after {number.name}" for pid in alive(pids))


def check_interrupted_start(_, __):
    """A signal while a process of a search starts is not lost. The process ends."""
    signals, pids, interrupted = [signal.SIGTERM], [], False
    os.register_at_fork(after_in_parent=lambda: signals and signal.raise_signal(signals.pop()))
    try:
        with interruptible(), Searchers(Plant(fifteen_section_line.right()), count=2) as searchers:
            try:
                searchers.start(600)
            finally:
                pids = [process.pid for process in searchers.processes.values()]
    except Interrupted:
        interrupted = True
    if not interrupted or len(pids) != 1:
        yield f"interrupted: {interrupted}, after the start of {len(pids)} processes"
    yield from (f"process {pid} is left" for pid in alive(pids))


def alive(pids):
    """Returns those processes that have not ended."""
    found = []
    for pid in pids:
        try:
            os.kill(pid, 0)
            words = Path(f"/proc/{pid}/stat").read_text(encoding="ascii").rpartition(")")[2].split()
            found += [pid] if words[0] != "Z" else []
        except OSError:
            pass
    return found


def check_search_alone(program, _):
    """tools/search prints a run that replay answers with a hazard."""
    given = json.dumps(fifteen_section_line.with_fault("border-without-board")).encode()
    done = subprocess.run([TOP / "tools/search", "--program", program, "--seconds", "20"], input=given,
                          capture_output=True, check=False)
    if done.returncode != 0:
        yield f"status {done.returncode}: {done.stderr.decode()}"
    said = Program(program, given).replay("free", done.stdout.decode()).said
    if not said.startswith("hazard "):
        yield f"replay says {said!r} of the printed run"
    for given, status in ((b"{", 2), (b'{"version":1,"sections":[],"routes":[]}', 2)):
        done = subprocess.run([TOP / "tools/search", "--program", program], input=given,
                              capture_output=True, check=False)
        if done.returncode != status:
            yield f"{given}: status {done.returncode}"


SearchTests = test_case("SearchTests", [check_search, check_search_cancel, check_search_far, check_search_right, check_shortening,
          check_credible_trains, check_parallel_search, check_processes_end, check_interrupted_start, check_search_alone])
