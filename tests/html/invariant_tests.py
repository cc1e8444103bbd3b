"""Tests of the invariant with the page's own reading of its families."""

import json
import random
import tempfile
from collections import Counter
from concurrent.futures import ThreadPoolExecutor
from pathlib import Path

from tests.support import case_files
from irvtools.model import events
from irvtools.model import invariant
from tests.support import fifteen_section_line
from tests.support import random_networks
from tests.html import invariant_states
from irvtools.generators import route_tables
from irvtools.calls.program import Program
from tests.support.random_faults import FAULTS, with_fault, with_protection
from irvtools.model.plant import Plant
from tests.support.report_plants import plants
from tests.support.random_runs import a_run, all_events, muddled
from irvtools.search.state_shrinking import leads_out, smaller
from irvtools.model.state import read_run
from tests.support.harness import test_case

MANY = 10               # times as much under --long
AT_ONCE = 4
NETWORKS = 120          # random
SMALL = (6000, 20000)   # most bytes of a tested configuration, in CI and under --long
LEFT_BY = ("V4", "V7", "V8", "hazard")      # what the last state of `not inductive` breaks
LEAST_OF_EACH = 1
STRICT = ("line", "station", "station-protected", "platforms", "terminus-throat", "line-with-boards",
          "stations 3")


def near(plant, state, rnd):
    """Returns a state that differs a little from `state`."""
    return rnd.choice(list(smaller(plant, state)) or [state]) if rnd.random() < 0.7 \
        else muddled(plant, state, rnd)


def check_families(program, is_long):
    """The page's reading of the invariant fits irv's answers about safe and wrong tables."""
    # If a table is safe at 1, each reached state meets the invariant, and no event leads out of it.
    # On wrong tables verify's run leaves it with its last event.
    rnd, met = random.Random(4), 0
    for name in STRICT:
        plant = Plant(json.loads(plants()[name]))
        for _ in range(25 * (MANY if is_long else 1)):
            _, state = a_run(plant, rnd)
            what = invariant.broken(plant, state)
            if what or not invariant.meets(plant, state):
                yield f"{name}: a state that is reached breaks {what[:1]}"
            apart = near(plant, state, rnd)
            for event in all_events(plant) if invariant.meets(plant, apart) else []:
                after = apart.copy()
                if events.apply(plant, after, event):
                    met += 1
                    if not invariant.meets(plant, after):
                        yield f"{name}: {event} leads out, to {invariant.broken(plant, after)[:1]}"
    if met < 300:
        yield f"only {met} events from states that meet the invariant"
    for name in ("path-ends-early", "facing-point-wrong", "path-skips-point", "border-without-board"):
        yield from leaving_faults(program, name)


def check_family_states(_, __):
    """Each hand-derived state of the line breaks exactly its families."""
    plant = Plant(fifteen_section_line.right())
    for wanted, changes in invariant_states.STATES:
        state = invariant_states.made(plant, changes)
        found = list(dict.fromkeys(what[0] for what in invariant.broken(plant, state)))
        if found != wanted.split():
            yield f"{changes}: broken are {found}, and not {wanted}"
        if invariant.meets(plant, state) == bool(wanted):
            yield f"{changes}: meets"


def asked(program, given, depth=1):
    """Returns verify's answer with free columns."""
    with tempfile.TemporaryDirectory(prefix="irv-page-test-") as room:
        words = ["verify", "--columns", "free", "--depth", str(depth), "--cert", str(Path(room, "cert"))]
        return Program(program, given).ask(words, 60)


def run_of(plant, answer):
    """Returns the first state and the events of verify's run."""
    return read_run(plant, answer.output.partition("\n")[2])


def leaving_faults(program, name):
    """Yields the faults in the page's reading of a run that finally leaves the invariant."""
    given = json.dumps(fifteen_section_line.with_fault(name)).encode()
    plant, answer = Plant(json.loads(given)), asked(program, given)
    state, run = run_of(plant, answer)
    if answer.line.startswith("breach"):
        least = invariant.broken(plant, events.replayed(plant, run)[-1])[0][0]
        if not answer.line.endswith(f"family={least}"):
            yield f"{name}: {answer.line}, and by the page's reading {least}"
    elif not answer.line.startswith("not inductive") or not leads_out(plant, state, run[0]):
        yield f"{name}: {answer.said}: the run's event doesn't lead out, by the page's reading"


# -- verify's run behind `not inductive`

def configurations(is_long):
    """Returns by name the configurations of examples/ and of the cases, those with a planted fault,
    and random changed tables, as bytes. Large ones need `is_long`."""
    found = plants()
    for file in sorted(case_files.CASES.glob("*.cases")):
        for case in case_files.read_case_file(file):
            if isinstance(case.conf, bytes) and case.conf not in found.values():
                found[f"{file.stem}, {case.name}"] = case.conf
    found.update({f"network {seed}": given for seed in range(NETWORKS) for given in changed_tables(seed)})
    return {name: given for name, given in found.items() if len(given) < SMALL[is_long]}


def changed_tables(seed):
    """Yields a random network's table with protection and one fault, or nothing if it has no
    routes."""
    network, _ = random_networks.network(seed)
    if isinstance(route_tables.routes(network), str):
        return
    chance = random.Random(seed)
    document = with_protection(route_tables.with_routes(network), chance)
    changed = with_fault(document, chance.choice(sorted(FAULTS)), chance) if document["routes"] else None
    if changed:
        yield json.dumps(changed[0]).encode()


def shown_faults(plant, answer, left):
    """Yields the faults in verify's run behind `not inductive`. `left` counts what its last state
    breaks."""
    state, run = run_of(plant, answer)
    reached = events.replayed(plant, run, state)
    if reached is None or [invariant.meets(plant, one) for one in reached] != [True] * len(run) + [False]:
        yield f"{answer.line}: the run that is shown doesn't leave the invariant with its last event alone"
    else:
        what = invariant.broken(plant, reached[-1])
        left.update({each[0] for each in what} or {"hazard"})


def check_not_inductive(program, is_long):
    """In the run behind `not inductive` only the last state breaks the invariant."""
    left, found = Counter(), configurations(is_long)
    with ThreadPoolExecutor(AT_ONCE) as pool:
        for depth in (1, 2, 3) if is_long else (1,):
            answers = pool.map(lambda given: asked(program, given, depth), found.values())
            for (name, given), answer in zip(found.items(), answers):
                if answer.line.startswith("not inductive"):
                    faults = shown_faults(Plant(json.loads(given)), answer, left)
                    yield from (f"{name}, depth {depth}: {fault}" for fault in faults)
    if min(left[what] for what in LEFT_BY) < LEAST_OF_EACH:
        yield f"too few of a kind: {dict(left)}"


InvariantTests = test_case("InvariantTests", [check_families, check_family_states, check_not_inductive])
