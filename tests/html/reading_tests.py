"""Tests of a report's readability: the verdict first, short runs, signs without colour, phone, dark
mode and paper. Layout is measured in a headless browser."""

import hashlib
import json
import re
import shutil
import tempfile
from pathlib import Path
from unittest import SkipTest

from irvtools.html.style import CSS
from irvtools.model.plant import Plant
from irvtools.model.state import run_text
from irvtools.search.random_search import RandomSearch
from irvtools.trackplan import signs
from tests.support import browser, contrast, devtools, paper
from tests.support.html_reports import page, shown_at
from tests.support.report_plants import plants
from tests.support.harness import Test, test_case

BETWEEN_STATES, OF_TEXT = 3.0, 4.5      # the least contrasts
TEXTS = ("ink", "quiet", "good", "warn", "bad", "board", "focus")
GROUNDS = ("ground", "soft", "own", "answer", "good-ground", "warn-ground", "bad-ground")
EVENTS = 53
PHONE, DESK = (390, 844), (1400, 1000)
MOST_HEIGHT = 13000     # pixels of a report with a run of 53 events, on a desktop
WRONG = "platforms-wrong-position"

SUMMARY = """(() => {
  const box = (one) => one?.getBoundingClientRect();
  const links = [...document.querySelectorAll('a[href^="#"]')].map((one) => one.getAttribute('href').slice(1));
  const colour = (one, what) => one ? getComputedStyle(one)[what] : '';
  const verdict = document.getElementById('verdict');
  return {height: document.documentElement.scrollHeight, width: document.documentElement.scrollWidth,
    hazard: box(document.getElementById('hazard'))?.y ?? null,
    verdict: [box(verdict)?.y, colour(verdict, 'backgroundColor'), parseFloat(colour(verdict, 'fontSize'))],
    link: box(document.querySelector('#verdict a'))?.y ?? null,
    lost: links.filter((id) => !document.getElementById(id)), toc: document.querySelectorAll('.toc a').length,
    frames: [...document.querySelectorAll('[id^=given-]')].map((one) => one.id).sort(),
    folded: [...document.querySelectorAll('details.minor')].filter((one) => !one.open).length,
    rows: new Set([...document.querySelectorAll('.frames .step')].map((one) => Math.round(box(one).x))).size,
    ground: colour(document.body, 'backgroundColor'), ink: colour(document.body, 'color')};
})()"""


def check_contrast(_, __):
    """Colours of states differ by 3 to 1 from one another and the background, and texts by 4.5 to
    1, in light and dark mode."""
    for name, colours in (("light", signs.LIGHT), ("dark", signs.DARK)):
        for states in signs.STATES:
            for place, one in enumerate(states):
                for other in states[:place]:
                    if contrast.ratio(colours[one], colours[other]) < BETWEEN_STATES:
                        yield f"{name}: {one} and {other} differ too little"
        for one in signs.DRAWN:
            if contrast.ratio(colours[one], colours["ground"]) < BETWEEN_STATES:
                yield f"{name}: {one} differs too little from the ground"
        for text in TEXTS:
            yield from (f"{name}: {text} on {ground} can't be read" for ground in GROUNDS
                        if contrast.ratio(colours[text], colours[ground]) < OF_TEXT)
    if set(signs.LIGHT) != set(signs.DARK):
        yield "a colour is missing in the light or in the dark"
    used = set(re.findall(r"var\(--([a-z-]+)\)", CSS))
    yield from (f"the style has the unknown colour "
                f"{one}" for one in sorted(used - set(signs.LIGHT)))


def long_run():
    """Returns a configuration, and a run of 53 events to a hazard."""
    given = plants()[WRONG]
    plant = Plant(json.loads(given))
    run = RandomSearch(plant, 1).for_hazard(600, 6000)
    idle = [("mark", 0), ("cancel", 0)] * EVENTS
    found = idle[:(EVENTS - len(run)) // 2 * 2] + run
    if len(found) < EVENTS:             # requests and cancellations come in pairs
        found = found + []
    return given, run_text(plant, found), len(found)


def with_run(program):
    """Returns the report of a run of 53 events, and their number."""
    given, text, count = long_run()
    with tempfile.TemporaryDirectory(prefix="irv-test-") as directory:
        file = Path(directory, "long.run")
        file.write_text(text, encoding="ascii")
        made, _ = page(program, given, "--run", file, "--verify-seconds", "0", "--search-seconds", "0")
    return made, count


class ReadingTests(Test):
    """Tests that need no program."""

    def test_contrast(self):
        """Colours of states and texts differ enough."""
        self.see(check_contrast(None, None))


def in_browser(check):
    """Returns a test with a browser, if there is one."""
    def checked(program, is_long):
        found = browser.find()
        if found is None:
            raise SkipTest("no browser is installed (Debian's package chromium)")
        running = devtools.Browser(found)
        try:
            yield from check(program, running)
        finally:
            running.close()
    checked.__name__, checked.__doc__ = check.__name__, check.__doc__
    return checked


@in_browser
def check_long_run(program, running):
    """In a run of 53 events the hazard is near the top and one click away. Each frame has an id,
    and each link a target. Events that move no train are folded, and frames are side by side on a
    desktop."""
    text, count = with_run(program)
    found = shown_at(running, text, SUMMARY, *DESK)
    if found["hazard"] is None or found["hazard"] > 2 * DESK[1] or found["height"] > MOST_HEIGHT:
        yield f"the hazard is at {found['hazard']}, of {found['height']} pixels"
    if found["link"] is None or found["link"] > DESK[1] / 2:
        yield f"the link to the hazard is at {found['link']}"
    if found["frames"] != sorted(f"given-{place}" for place in range(count + 1)):
        yield f"frames: {found['frames']}"
    if found["lost"] or found["toc"] < 5:
        yield f"links that lead nowhere: {found['lost']}; contents: {found['toc']}"
    if found["folded"] < count - 20 or found["rows"] < 2:
        yield f"folded: {found['folded']}; columns of frames: {found['rows']}"
    found = shown_at(running, text, SUMMARY, *PHONE)
    if found["rows"] != 1:
        yield f"columns of frames on a phone: {found['rows']}"


@in_browser
def check_small_and_dark(program, running):
    """On a phone the report is as wide as the screen. Dark mode has a dark background."""
    text, _ = with_run(program)
    found = shown_at(running, text, SUMMARY, *PHONE)
    if found["width"] > PHONE[0]:
        yield f"on a phone the report is {found['width']} pixels wide"
    for scheme, is_dark in (("light", False), ("dark", True)):
        found = shown_at(running, text, SUMMARY, *PHONE, prefers_color_scheme=scheme)
        ground, ink = (contrast.luminance(contrast.of_style(found[part])) for part in ("ground", "ink"))
        if (ground < 0.1) != is_dark or (ink > 0.5) != is_dark:
            yield f"{scheme}: {found['ground']}, {found['ink']}"


def proved(program, directory):
    """Returns a copy of a program, with a build note."""
    copy = Path(directory, "irv")
    shutil.copy(program, copy)
    total = hashlib.sha256(copy.read_bytes()).hexdigest()
    copy.with_name("irv.built").write_text(f"sources 0\nprogram {total}\ntoolchain "
                                           f"rt\n", encoding="utf-8")
    return copy


@in_browser
def check_verdict_first(program, running):
    """Good and bad reports differ at first sight: the verdict is the first line, large and
    coloured. Only the proved program gets green."""
    colours, given = {}, plants()
    with tempfile.TemporaryDirectory(prefix="irv-test-") as directory:
        for name, asked, data in (("good", proved(program, directory), given["station"]),
                                  ("unproved", program, given["station"]),
                                  ("bad", proved(program, directory), given[WRONG])):
            text, said = page(asked, data, "--verify-seconds", "5")
            found = shown_at(running, text, SUMMARY, *DESK)
            y, colours[name], size = found["verdict"]
            if y is None or y > 200 or size < 15:
                yield f"{name}: the verdict is at {y}, in letters of {size} pixels; {said}"
            if ("othing is proved by this" in said) != (name == "unproved"):
                yield f"{name}: {said}"
    if len(set(colours.values())) != 3:
        yield f"{colours}"
    if colours["good"] != contrast.as_style(signs.LIGHT["good-ground"]):
        yield f"a safe table of the proved program is {colours['good']}"


@in_browser
def check_signs(program, running):
    """In pictures of a run, locked and used sections have letters, closed and open boards differ in
    shape, and trains have arrows and numbers."""
    given = plants()["station"]
    run = "run 1\nstart\n" + "".join(f"{line}\n" for line in (
        "enter b1", "mark r1", "allocate r1", "lock r1", "head b1", "sense r1", "enter b2", "end"))
    with tempfile.TemporaryDirectory(prefix="irv-test-") as directory:
        file = Path(directory, "signs.run")
        file.write_text(run, encoding="ascii")
        text, _ = page(program, given, "--run", file, "--search-seconds", "0")
    last = text.partition('id="given-7"')[2].partition("</svg></div>")[0]
    letters = re.findall(r'class="letter">(.)<', last)
    if sorted(letters) != ["L", "U"]:
        yield f"letters: {letters}"
    for sign in ('href="#buc"', 'href="#bdc"', 'class="ah up"', 'class="ah down"',
                 'class="core"'):
        if sign not in last:
            yield f"{sign} isn't in the last picture"
    if re.findall(r'<text y="4">(\d)<', last) != ["1", "2"]:
        yield "the trains have no numbers"
    shapes = "['buc', 'buo'].map((id) => [...document.getElementById(id).children].map((one) => one.tagName).join())"
    closed, opened = shown_at(running, text, shapes, *DESK)
    if closed == opened:
        yield f"a closed board is drawn as an open one: {closed}"


@in_browser
def check_paper(program, running):
    """On paper no heading ends a sheet, and the test would see one."""
    for text in (with_run(program)[0], page(program, plants()[WRONG], "--verify-seconds", "5")[0]):
        yield from paper.orphans(running, text)
    style = ("@page{size:A4;margin:11mm}body{font-size:12px}h2{font-size:12.5pt;margin:0;break-after:auto}"
             "div{height:940px}p{break-inside:avoid;margin:9px}b{display:block;height:200px}")
    orphan = f"<!doctype html><style>{style}</style><p>a</p><div></div><h2>b</h2><p>c<b></b></p>"
    if list(paper.orphans(running, orphan)) != ["sheet 1 ends with a heading"]:
        yield f"a heading at the end of a sheet isn't seen: {list(paper.orphans(running, orphan))}"


LayoutTests = test_case("LayoutTests", [check_long_run, check_small_and_dark, check_verdict_first, check_signs,
                                        check_paper])
