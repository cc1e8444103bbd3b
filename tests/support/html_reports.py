"""Whole and partial reports for tests."""

import json
import re
import subprocess
import tempfile
from html import unescape
from pathlib import Path
from types import SimpleNamespace

from irvtools.generators import configurations
from irvtools.trackplan.drawing import Drawing
from irvtools.html.report import Report
from irvtools.model.plant import Plant
from irvtools.paths import TOP


def page(program, given, *words):
    """Makes a configuration's page. Returns its text and the output."""
    with tempfile.TemporaryDirectory(prefix="irv-page-test-") as room:
        out = Path(room, "page.html")
        done = subprocess.run([TOP / "tools/html", out, "--program", program, *words], input=given,
                              capture_output=True, check=False)
        text = out.read_text(encoding="utf-8") if out.exists() else ""
        return text, done.stdout.decode() + done.stderr.decode()


def shown_by(program, given, text, *words):
    """Makes a page with a given run or scenario. Returns its words without markup, and the output."""
    with tempfile.TemporaryDirectory(prefix="irv-page-run-") as room:
        file = Path(room, "given.run")
        file.write_text(text)
        made, printed = page(program, given, "--run", file, "--search-seconds", "0", *words)
    return plain(made), printed


def shown_at(running, text, expression, width, height, **features):
    """Returns an expression's value on a page in a browser window of a size."""
    with tempfile.TemporaryDirectory(prefix="irv-shown-") as room:
        file = Path(room, "page.html")
        file.write_text(text, encoding="utf-8")
        shown = running.page(width=width, height=height, **features)
        shown.resize(width, height, touch=width < 500)
        shown.open(file)
        value = shown.ask(expression)
        running.call("Target.closeTarget", targetId=shown.target)
    return value


def plain(markup):
    """Returns markup as a reader sees it, without style and picture titles."""
    markup = re.sub(r"<style>.*?</style>|<title>.*?</title>", " ", markup, flags=re.S)
    return " ".join(unescape(re.sub(r"<[^>]*>", " ", markup)).split())


def plant_of(text):
    """Returns the plant of a short text, and its bytes."""
    given = configurations.plant_text([line.strip() for line in text.strip().split("\n")])
    return Plant(json.loads(given)), given


def part_of(program, text, part, *more):
    """Returns the words of a part of the page about the plant of a short text."""
    plant, given = plant_of(text)
    made = Report(SimpleNamespace(program=str(program), name="a plant"), given)
    made.plant, made.drawing = plant, Drawing(plant)
    part(made, *more)
    return plain(" ".join(made.parts))
