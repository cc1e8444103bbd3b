"""Tests of shrunk states, and of runs that use routes."""

import json
import random

from irvtools.model import events
from tests.support import fifteen_section_line
from irvtools.calls.program import Program
from tests.support.html_reports import TOP
from irvtools.model.plant import Plant
from tests.support.report_plants import plants
from tests.support.random_runs import a_run
from irvtools.search.state_shrinking import leads_out, shrunk, smaller
from irvtools.model.state import read_event, run_text
from irvtools.search.route_uses import is_use, uses
from tests.support.harness import test_case


def check_shrink(_, __):
    """A state is shrunk as far as possible, and still leads out of the invariant."""
    plant = Plant(fifteen_section_line.with_fault("path-ends-early"))
    chance, tried = random.Random(5), 0
    for _ in range(300):
        run, _ = a_run(plant, chance)
        reached = events.replayed(plant, run)
        before, event = next(((before, event) for before, event in zip(reached, run)
                              if leads_out(plant, before, event)), (None, None))
        if event is None:
            continue
        tried += 1
        small = shrunk(plant, before, event)
        if small is None or not leads_out(plant, small, event):
            yield f"{event}: the shrunk state doesn't lead out"
        elif len(small.trains) > 2 or any(leads_out(plant, less, event)
                                          for less in smaller(plant, small)):
            yield f"{event}: more can be left out; {len(small.trains)} trains are left"
        if tried == 5:
            break
    if not tried:
        yield "no event that leads out was tried"


def check_uses(program, _):
    """A train uses each route of tables that break no rule as a whole, as replay confirms."""
    document = json.loads((TOP / "examples/four-sections.json").read_text())
    document["sections"][3]["board_down"] = None
    plant = Plant(document)
    words = "mark r1,allocate r1,lock r1,enter d,head d,sense r1,finish r1"
    other = [read_event(plant, word) for word in words.split(",")]
    if events.replayed(plant, other) is None or is_use(plant, other, 0):
        yield "a train of the other direction uses a route"
    for name in ("line", "station", "station-protected", "platforms", "stations 3"):
        given = plants()[name]
        plant, irv = Plant(json.loads(given)), Program(program, given)
        found, _ = uses(plant, 60)
        for r, route in enumerate(plant.routes):
            run = found.get(r)
            if run is None:
                yield f"{name}: no use of {route.name}"
                continue
            if run[-1] != ("finish", r) or not is_use(plant, run, r):
                yield f"{name}: no train uses {route.name} whole"
            if irv.replay("strict", run_text(plant, run)).said != "no hazard":
                yield f"{name}: the use of {route.name} isn't a run without a hazard"


RouteUseTests = test_case("RouteUseTests", [check_shrink, check_uses])
