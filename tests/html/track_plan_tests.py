"""Tests of the track plan's names and letters, and of its uniqueness."""

import json
import tempfile
from pathlib import Path

from irvtools.generators import configurations
from irvtools.rules import broken_rules
from irvtools.trackplan.drawing import Drawing
from irvtools.trackplan.layout import CHARACTER
from irvtools.model.plant import Plant
from tests.support.html_reports import page
from tests.support.report_plants import plants
from tests.html.rule_sentence_tests import cases
from tests.support.harness import test_case


LEAST_GAP = 3           # between names of one line


def texts_of(drawing):
    """Yields each strip with its names: name, left, right, line."""
    labels = list(drawing.labels())
    for strip in drawing.strips:
        shown = []
        for text in drawing.labels_in(strip, labels):
            x, y = (int(text.split(f'{key}="')[1].split('"')[0]) for key in ("x", "y"))
            name = text.split(">")[1].split("<")[0]
            shown.append((name, x, x + len(name) * CHARACTER, y))
        yield strip, shown


def letter_faults(name, drawing):
    """Yields the letters of sections that touch a name or one another."""
    names = [(text, low, high, y) for _, text, low, high, y in drawing.labels()]
    letters = [("a letter", x - CHARACTER / 2, x + CHARACTER / 2, y)
               for x, y in map(drawing.letter_place, range(len(drawing.plant.sections)))]
    for place, (_, low, high, y) in enumerate(letters):
        for word, first, last, line_ in names + letters[:place]:
            if abs(y - line_) < 10 and low < last and first < high:
                yield f"{name}: a letter lies on {word}"


def plan_faults(name, drawing):
    """Yields names that touch or leave their strip, missing names, and letters on names."""
    everywhere = set()
    yield from letter_faults(name, drawing)
    for (left, _, width, _), shown in texts_of(drawing):
        everywhere |= {text[0] for text in shown}
        for place, (word, begin, end, y) in enumerate(shown):
            if begin < left - 1 or end > left + width + 1:
                yield f"{name}: {word} leaves its strip"
            for other, first, last, line_ in shown[:place]:
                if abs(y - line_) < 10 and begin < last + LEAST_GAP and first < end + LEAST_GAP:
                    yield f"{name}: {word} touches {other}"
    named = {one.name for one in drawing.plant.sections + drawing.plant.boards}
    yield from (f"{name}: {word} isn't shown" for word in sorted(named - everywhere))


def check_plans(_, is_long):
    """No name in a plan touches another or is cut, and a plant has one plan."""
    found = plants()
    for count in (1, 2, 5, 16, *((51,) if is_long else ())):
        found[f"stations {count}"] = configurations.made("stations", str(count))
    for name, given in found.items():
        first, second = (Drawing(Plant(json.loads(given))) for _ in range(2))
        yield from plan_faults(name, first)
        if first.plan() != second.plan() or first.definitions() != second.definitions():
            yield f"{name}: two plans differ"


def check_broken_plans(_, __):
    """Networks that break rules have a plan too."""
    for (file, name), case in cases().items():
        lines = case.stdout.decode().splitlines()
        if file == "network" and lines and lines[0].startswith("refused N"):
            drawing = Drawing(Plant(json.loads(case.conf)))
            for refusal in lines:
                plan = drawing.plan(broken_rules.where(drawing.plant, *broken_rules.read_line(refusal)))
                if "nan" in plan or "inf" in plan:
                    yield f"{name}: no place"


def check_hollow_boards(program, _):
    """Boards that an import placed by a rule are drawn hollow, and the report says so. A file
    without import notes is refused."""
    given = plants()["line-with-boards"]
    entries = [{"kind": "board", "name": "m1", "by": "rule"}, {"kind": "board", "name": "m2", "by": "data"},
               {"kind": "cut", "name": "m2"}]
    with tempfile.TemporaryDirectory(prefix="irv-test-") as directory:
        file = Path(directory, "notes.json")
        file.write_text(json.dumps({"notes": 1, "entries": entries}), encoding="utf-8")
        text, said = page(program, given, "--import-notes", file)
        if (text.count('href="#buh"'), text.count('href="#bdh"')) != (1, 0) or "1 board, drawn hollow" not in text:
            yield f"hollow boards: {text.count('#buh')} up, {text.count('#bdh')} down; {said}"
        for bad in ("{", "[]", '{"notes": 2, "entries": '
                               '[]}', '{"notes": 1}', '{"notes": 1, "entries": [1]}'):
            file.write_text(bad, encoding="utf-8")
            text, said = page(program, given, "--import-notes", file)
            if text or "is not a file of notes of an import" not in said:
                yield f"{bad}: {said}"
        text, said = page(program, given, "--import-notes", Path(directory, "nothing"))
        if text or "cannot read --import-notes" not in said:
            yield f"no notes: {said}"


TrackPlanTests = test_case("TrackPlanTests", [check_plans, check_broken_plans, check_hollow_boards])
