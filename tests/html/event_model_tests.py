"""Tests of the page's two event models: the drawing model, and the bit-set model of the search."""

import concurrent.futures
import json
import random

from irvtools.generators import configurations
from irvtools.model import events
from irvtools.calls.program import Program, replay_line
from irvtools.model.plant import Plant
from tests.support.report_plants import plants
from tests.support.random_runs import a_run, a_walk, all_events, is_enabled, muddled, wandered
from irvtools.model.bitset_events import HAZARD, Facts, Simulation
from irvtools.model.state import State, read_event, read_run, run_text
from irvtools.search.route_uses import is_use, uses
from tests.support.harness import Counted, test_case

TAKES_LONG = True

THREADS = 4
MANY = 10               # times as much under --long
AT_END = 60             # events that are tested at the end of a run
# the plants of version 2 with protecting boards and points
PROTECTED = ("line", "station-protected")
# two lines with wrong routes: r3 and r4 lead to the other line, and r1 has its board as protection,
# which no conflict lists
CROSSED = ["linear a . b . aU", "linear b a . . .", "linear c . d . cU", "linear d c . . .",
           "route r1 from aU to . path b protecting_boards cU", "route r2 from cU to . path d",
           "route r3 from aU to . path d", "route r4 from cU to . path b"]
# a train of the other line is sensed on r3's path and closes r3's source before any train passes it
ANOTHER_SENSED = ("mark r3,allocate r3,lock r3,mark r4,allocate r4,lock r4,enter a,enter c,head c,"
                  "sense r3")
# what keeps an allocated route from being locked: each cause has to occur alone
CAUSES = ("a point", "a protecting point", "a protecting board", "the source protects")


def model_faults(program, name, given, count, seed, met):
    """Yields the differences of the drawing model and replay over random runs of a plant. `met`
    collects event words with whether they were enabled, and each cause that alone prevented a lock."""
    plant, chance = Plant(json.loads(given)), random.Random(f"{name} {seed}")
    irv, known, compared = Program(program, given), all_events(plant), 0
    for _ in range(count):
        run, reached = a_run(plant, chance)
        pairs = [(run_text(plant, run), replay_line(plant, events.hazard(plant, reached)))]
        met.update((word, True) for word, _ in run)
        for start in (reached, muddled(plant, reached, chance)):
            run, end = wandered(plant, start, chance, 12)
            pairs.append((run_text(plant, run, start), replay_line(plant, events.hazard(plant, end))))
            refused = chance.choice(known)
            if not is_enabled(plant, end, refused):
                pairs.append((run_text(plant, [*run, refused], start),
                              f"not a run at {len(run) + 1}"))
                met.add((refused[0], False))
            met.update((word, True) for word, _ in run)
        pairs += locking(plant, muddled(plant, reached, chance), chance, met)
        compared += len(pairs)
        yield from (f"{name}: {fault}" for fault in pair_faults(plant, irv, pairs))
    return compared


def locking(plant, state, chance, met):
    """Yields the lock of a route that has protection, or whose source protects another, with at
    most one cause against it: a run's text and the expected answer."""
    protecting = {b for route in plant.routes for b in route.protecting_boards}
    routes = [r for r, route in enumerate(plant.routes) if route.protecting_boards
              or route.protecting_points or route.source in protecting]
    if not routes:
        return
    r = chance.choice(routes)
    allocated(plant, state, r)
    cause = chance.choice((*CAUSES, None))
    is_hindered = cause is not None and hinder(plant, state, r, cause, chance)
    if events.hazard(plant, state) is None:
        met.add((cause, "hinders") if is_hindered else ("lock", True))
        yield (run_text(plant, [("lock", r)], state),
               "not a run at 1" if is_hindered else "no hazard")


def allocated(plant, state, r):
    """Changes a state so that nothing keeps a route from being locked."""
    route = plant.routes[r]
    state.mode[r], state.seen[r], state.rel[r] = "allocating", 0, 0
    for x, lie in route.wanted:
        state.at[x] = lie
    for b in route.protecting_boards:
        state.aspect[b] = "closed"
    for o, other in enumerate(plant.routes):
        if state.mode[o] == "locked" and route.source in other.protecting_boards:
            state.mode[o] = "free"


def hinder(plant, state, r, cause, chance):
    """Changes a state so that a cause keeps a route from being locked, if it can. Returns whether
    it does."""
    route = plant.routes[r]
    guards = [o for o, other in enumerate(plant.routes) if route.source in other.protecting_boards]
    things = dict(zip(CAUSES, (route.points, route.protecting_points, route.protecting_boards, guards)))
    if not things[cause]:
        return False
    thing = chance.choice(things[cause])
    if cause in CAUSES[:2]:
        x, lie = thing
        state.at[x] = chance.choice(["moving", "minus" if lie == "plus" else "plus"])
    elif cause == CAUSES[2]:
        state.aspect[thing] = "open"
    else:
        state.mode[thing] = "locked"
    return True


def pair_faults(plant, irv, pairs):
    """Yields replay's wrong answers to `pairs` of a run's text and the expected answer."""
    for text, wanted in pairs:
        first, list_ = read_run(plant, text)
        if run_text(plant, list_, first) != text:
            yield "a run's text is read otherwise than it was written"
        said = irv.replay("free", text).said
        if said != wanted:
            yield f"replay says {said!r}, the model {wanted!r}, of {text!r}"


def check_model(program, is_long):
    """The event model agrees with replay over random runs and random states."""
    count, met, chosen = 16 * (MANY if is_long else 1), set(), plants()
    compared = {name: Counted(model_faults(program, name, given, count * (2 if name in PROTECTED else 1),
                                           1, met)) for name, given in chosen.items()}
    with concurrent.futures.ThreadPoolExecutor(THREADS) as pool:
        for faults in pool.map(list, compared.values()):
            yield from faults[:3]
    yield from (f"{word} was never {'enabled' if enabled else 'refused'}" for word in events.EVENTS
                for enabled in (True, False) if (word, enabled) not in met)
    yield from (f"{cause} alone never kept a route from being locked" for cause in CAUSES
                if (cause, "hinders") not in met)
    return sum(each.checks for each in compared.values())


def check_simulation(_, is_long):
    """The search's model agrees with the drawing model, event by event."""
    chance, met, count = random.Random(7), set(), 12 * (MANY if is_long else 1)
    for name, given in plants().items():
        plant = Plant(json.loads(given))
        runs = (a_walk(plant, chance) for _ in range(count))
        yield from (f"{name}: {fault}" for fault in sides(plant, runs, chance, met))
    plant = crossed()
    runs = [wandered(plant, State(plant), chance, 50)[0] for _ in range(2 * count)]
    by_hand = [run_of(plant, ANOTHER_SENSED)]
    for fault in [*sides(plant, runs, chance, met), *sides(plant, by_hand, chance, met, 0)]:
        yield f"crossed lines: {fault}"
    yield from (f"{word} was never {done}" for word in events.EVENTS for done in (True, False)
                if (word, done) not in met)


def crossed():
    """Returns the plant of two lines that are crossed by routes."""
    return Plant(json.loads(configurations.plant_text(CROSSED)))


def run_of(plant, words):
    """Returns a run from its events, separated by commas."""
    return [read_event(plant, word) for word in words.split(",")]


def sides(plant, runs, chance, met, others=6):
    """Yields the differences of the two models over runs with inserted events."""
    facts, known = Facts(plant), all_events(plant)
    for run in runs:
        yield from side_by_side(plant, Simulation(facts), run, known, chance, met, others)


def side_by_side(plant, simulation, run, known, chance, met, others):
    """Yields the differences of the two models over a run, and in random events after it."""
    state = State(plant)
    for wanted in run:
        for event in [*chance.sample(known, others), wanted]:
            fault, is_hazard = difference(plant, state, simulation, event, met)
            if fault:
                yield fault
            if fault or is_hazard:
                return
    for event in chance.sample(known, min(AT_END, len(known))):
        fault, _ = difference(plant, state.copy(), simulation.copy(), event, met)
        if fault:
            yield f"at the end of {run}: {fault}"


def difference(plant, state, simulation, event, met):
    """Does an event in both models. Returns their difference or `None`, and whether to end the run."""
    word, number = event
    enabled, done = events.apply(plant, state, event), simulation.by_word()[word](number)
    met.add((word, enabled))
    at = events.hazard(plant, state) if enabled else None
    if (bool(done), done == HAZARD) != (enabled, at is not None) \
            or at is not None and simulation.hazard_at != at:
        return (f"{event} is {done}, {simulation.hazard_at} for the hunt, and {enabled}, {at} for "
                f"the "
                "page"), True
    return None, at is not None


def check_is_use(_, __):
    """A train does not use a route if it passes the source while another train is sensed on the
    path."""
    plant = crossed()
    words = ANOTHER_SENSED.replace("sense", "head a,sense") + ",finish r3"
    run = run_of(plant, words)
    if events.replayed(plant, run) is None or is_use(plant, run, plant.route_named["r3"]):
        yield "another train uses a route"


def check_after_use(program, _):
    """After each route's whole use, the model and replay agree on which routes can be set next."""
    compared = 0
    for name in PROTECTED:
        given = plants()[name]
        plant, irv = Plant(json.loads(given)), Program(program, given)
        for run in uses(plant, 60)[0].values():
            state = events.replayed(plant, run)[-1]
            pairs = []
            for other in range(len(plant.routes)):
                after = state.copy()
                if events.apply(plant, after, ("mark", other)):
                    is_set = events.apply(plant, after, ("allocate", other))
                    pairs.append((run_text(plant, [*run, ("mark", other), ("allocate", other)]),
                                  "no hazard" if is_set else f"not a run at {len(run) + 2}"))
            compared += len(pairs)
            yield from (f"{name}: {fault}" for fault in pair_faults(plant, irv, pairs))
    return compared


EventModelTests = test_case("EventModelTests", [check_model, check_simulation, check_is_use, check_after_use])
