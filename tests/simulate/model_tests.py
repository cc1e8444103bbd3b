"""Tests of the page's model in a script engine."""

import json
from pathlib import Path
from unittest import SkipTest

from tests.simulate import model_checks
from tests.support import case_files
from irvtools.generators import configurations
from irvtools.simulate import script_engine
from tests.simulate import expected_reasons
from irvtools.simulate import scripts
from irvtools.model.plant import Plant
from tests.support.harness import test_case

SCRIPT = Path(__file__).resolve().parent / "model_checks.js"
EVENTS, DRIVES = 60, 2          # of each plant, in CI
CASES = ("events", "states", "runtext", "drive")
BLOCKADES = {"station": 40, "line-with-boards": 10, "line": 15, "stations "
                                                                "2": 10, "path-ends-early": 15}
MOST_OF_BLOCKADE = 150          # events of a run
LONG = 45                       # more events than between two states that a play keeps


def asks(name, plant, expression):
    """Returns an expression's value over a plant in the engine."""
    return script_engine.Engine(script_engine.find(), plant, SCRIPT.read_text(encoding="utf-8")).ask(expression)


def is_there():
    """Returns true if there is a script engine. Skips the test otherwise."""
    if script_engine.find() is None:
        raise SkipTest(f"no script engine is installed ({', '.join(script_engine.NAMES)})")
    return True


def check_model(program, _):
    """The model agrees with replay, drive and the other event model over random runs."""
    if not is_there():
        return None
    count = model_checks.Count()
    yield from model_checks.faults(program, asks, (EVENTS, DRIVES), count)
    yield from count.left_out()
    return count.compared()


def replay_cases():
    """Returns the replay and drive cases with an answer: name, plant's bytes, command, text and
    line."""
    for file in CASES:
        for case in case_files.read_case_file(case_files.CASES / f"{file}.cases"):
            line = (case.stdout or b"").decode().partition("\n")[0]
            if case.words[:1] in (["replay"], ["drive"]) and line and not line.startswith("refused") \
                    and case.words[-1] in case.files:
                yield (f"{file}, {case.name}", case.conf, case.words[0],
                       case.files[case.words[-1]].decode("latin-1"), line)


def check_cases(_, __):
    """The model answers the replay and drive cases of tests/cases as they expect."""
    if not is_there():
        return
    found, plants = list(replay_cases()), {}
    for _, given, *_ in found:
        plants.setdefault(given, len(plants))
    values = [scripts.plant_value(Plant(json.loads(given))) for given in plants]
    asked = [[plants[given], command, text] for _, given, command, text, _ in found]
    answers = asks("", Plant(json.loads(found[0][1])),
                   f"((plants) => {scripts.as_json(asked)}.map(([p, command, text]) => "
                   "(command === 'drive' ? answerToScene : answerToRun)(plants[p], text)))"
                   f"({scripts.as_json(values)}.map((value) => new Plant(value)))")
    for (name, *_, wanted), answer in zip(found, answers):
        if answer.partition("\n")[0] != wanted:
            yield f"{name}: {wanted!r} is expected, and the page says {answer[:80]!r}"
    if len(found) < 300:
        yield f"only {len(found)} cases"


# When the first train reaches c2, both other routes are allocated at once: the train at X could go
# on before the other route's point is thrown.
ORDER = """linear c1 . c2 . C
linear c2 c1 . . .
linear x1 . x2 . X
linear x2 x1 . . .
linear y1 . p . Y
point p up y1 y2 y3
linear y2 p . . .
linear y3 p . . .
route r from C to . path c2 overlap x2 p points p=plus
route a from X to . path x2
route b from Y to . path p y3 points p=minus"""
SCENE = "drive 1\nmark r\nenter x1\nenter y1\nmark a\nmark b\nenter c1\nend\n"


def check_order(program, _):
    """Automatic events come in drive's order, also if trains and points could move at once."""
    if not is_there():
        return
    given = configurations.plant_text(ORDER.splitlines())
    says = asks("", Plant(json.loads(given)), f"answerToScene(plant, "
                                              f"{script_engine.as_text(SCENE)})")
    yield from model_checks.drive_faults(program, given, [{"scene": SCENE, "says": says}])
    if not 0 < says.find("throw p\n") < says.find("head x1\n"):
        yield f"the point isn't thrown before the train goes on: {says!r}"


def examples():
    """Returns the plants by name."""
    return {name: Plant(json.loads(given)) for name, given in model_checks.plants().items()}


def check_reasons(_, __):
    """Impossible, waiting and blocked things have their hand-derived reasons."""
    if not is_there():
        return
    asked = [(name, f"refusalOf(plant, {script_engine.as_text(before)}, "
                    f"{script_engine.as_text(event)})", wanted)
             for name, before, event, wanted in expected_reasons.REFUSED]
    for function, entries in (("waitingOf", expected_reasons.WAITING), ("blockedOf", expected_reasons.BLOCKED)):
        asked += [(name, f"{function}(plant, {script_engine.as_text(before)})", wanted)
                  for name, before, wanted in entries]
    for name, plant in examples().items():
        of_plant = [one for one in asked if one[0] == name]
        if not of_plant:
            continue
        said = asks(name, plant, f"[{', '.join(expression for _, expression, _ in of_plant)}]")
        for (_, expression, wanted), words in zip(of_plant, said):
            if words != wanted:
                yield f"{name}, {expression}: {words!r} is said, and not {wanted!r}"


def check_back_and_forth(_, __):
    """A play that goes back, forth and on is in the state of its events."""
    if not is_there():
        return
    for name in ("station", "stations 2"):
        said = asks(name, examples()[name], "[1, 2, 3].map((seed) => isTrueToEvents(plant, seed, "
                                            "260))")
        if not all(is_true for is_true, _ in said) or max(most for _, most in said) < LONG:
            yield f"{name}: {said}"


# r1 was allocated before the other train reached its path: it may be locked, and the first train
# goes on
BEGUN = """run 1
state
route r1 allocating 0 0
route r2 free 0 0
board m1 closed
board m2 closed
section a free
section b locked
train up a
train down b
events
end
"""


def check_begun(_, __):
    """If an allocated route may let a train go on, no blocking is reported."""
    if not is_there():
        return
    plant = examples()["line-with-boards"]
    for text, wanted in ((BEGUN, 0), (BEGUN.replace("allocating", "marked"), 3)):
        said = asks("", plant, f"blockedAfter(plant, {script_engine.as_text(text)})")
        if len(said) != wanted:
            yield f"{text!r}: {said}"


def check_blockades(_, is_long):
    """Trains that are reported as deadlocked never go on."""
    if not is_there():
        return
    plants, said = examples(), 0
    for name, runs in BLOCKADES.items():
        runs *= 10 if is_long else 1
        found = asks(name, plants[name], f"brokenBlockades(plant, 7, {runs}, {MOST_OF_BLOCKADE})")
        said += found["said"]
        yield from (f"{name}: one goes on: {text!r}" for text in found["broken"])
    if said < 100:
        yield f"it was said only {said} times"


ModelTests = test_case("ModelTests", [check_model, check_cases, check_order, check_reasons, check_back_and_forth,
          check_begun, check_blockades])
