"""Tests of the simulator in a headless browser: its model, and runs by clicks."""

import json
import subprocess
import time
from pathlib import Path

from tests.simulate import model_checks
from tests.simulate.browser_page import Shown, close, faults, in_browser
from irvtools.paths import TOP
from tests.support.harness import test_case

SCRIPT = Path(__file__).resolve().parent / "model_checks.js"
SHORT, LONG = (150, 3), (6000, 40)      # events and drives of each plant
FEW = ("two-sections", "station-protected", "trailing-point-wrong")     # only these without --long


@in_browser
def check_browser_model(program, running, is_long):
    """In the browser the model agrees with replay, drive and the other model."""
    count = model_checks.Count()
    script = SCRIPT.read_text(encoding="utf-8")

    def asks(name, _, expression):
        with Shown(program, running, model_checks.plants()[name]) as shown:
            shown.page.ask(script + ";0")
            return shown.page.ask(f"((plant) => ({expression}))(game.plant)")
    size, names = (LONG, None) if is_long else (SHORT, FEW)
    yield from model_checks.faults(program, asks, size, count, names)
    if is_long:
        print(f"in the browser: {count}")
        yield from count.left_out()
        if count.events < 100000:
            yield f"only {count.events} events"
    return count.compared()


@in_browser
def check_browser_crossing(program, running, _):
    """Two trains cross in a passing loop by clicks. Replay and drive answer the saved files."""
    with Shown(program, running, model_checks.plants()["station"]) as shown:
        shown.press("entry", "b1")
        shown.press("entry", "b2")
        for source, to in ((("board", "m1"), ("board", "m3")), (("board", "m2"), ("board", "m6")),
                           (("board", "m3"), ("section", "b2")), (("board", "m6"), ("section", "b1"))):
            shown.press(*source)
            shown.press(*to)
        run, scene = shown.saved("save-run", ".run"), shown.saved("save-scene", ".scene")
        own = (TOP / "examples/station-crossing.scene").read_text()
        yield from faults("the crossing", [
            (scene and scene.read_text(), own), (run and shown.answer("replay", run), "no hazard\n"),
            (shown.text("place"), "54 of 54"), (shown.text("own"), "no hazard"),
            (run and shown.answer("drive", scene), f"driven steps=54\n{run.read_text()}"),
            (shown.page.ask("game.state.trains.length"), 0), (list(shown.page.faults()), [])])


@in_browser
def check_browser_refused(program, running, _):
    """A waiting route and a disabled event show their reasons, and deadlocked trains are reported."""
    with Shown(program, running, model_checks.plants()["station"]) as shown:
        shown.press("entry", "b1")
        shown.press("board", "m1")
        shown.press("board", "m3")
        shown.press("entry", "b1")
        shown.press("board", "m1")
        shown.press("board", "m3")
        waits = shown.text("chosen")
        shown.button("Allocate")
        refused = shown.text("alert")
        shown.button("Request (mark)")
        again = shown.text("alert")
        shown.press("entry", "b1")
        closed = shown.text("alert")
        shown.button("Cancel")
        place = shown.text("place")
        shown.press("board", "m1")
        shown.press("board", "m5")
        shown.press("entry", "b2")
        file = shown.saved("save-played", ".played")
        checked = subprocess.run([TOP / "tools/simulate", "--compare", file, "--program", program],
                                 input=shown.given, capture_output=True, check=False)
        yield from faults("refused", [
            ("It waits: t1 is occupied by train 1." in waits, True),
            (refused, "r1 cannot be allocated: t1 is occupied by train 1."),
            (again, "r1 cannot be requested: r1 is marked, not free."),
            (closed, "No train can enter at b1: b1 is occupied by train 2."), (place, "15 of 15"),
            (shown.text("blocked").partition(":")[0], "Train 1, Train 2, Train 3 block each other"),
            (checked.returncode, 0), (checked.stdout.decode().count("the simulator says the "
                                                                    "same"), 4),
            (list(shown.page.faults()), [])])


@in_browser
def check_browser_collision(program, running, _):
    """A collision on a wrong table takes under twenty clicks. It is saved, replayed, loaded, and
    continued from an earlier event."""
    with Shown(program, running, model_checks.plants()["platforms-wrong-position"]) as shown:
        shown.press("entry", "pl1")
        shown.press("entry", "line")
        shown.press("board", "home")
        shown.press("section", "pl2")
        clicks, alert = shown.clicks, shown.text("alert")
        shown.press("entry", "pl2")
        after = shown.text("said")
        run = shown.saved("save-run", ".run")
        text = run.read_text()
        shown.page.open(shown.file)
        shown.load(run)
        loaded = shown.page.ask("game.play.runText()")
        shown.click("#to-start", "#forth")
        shown.press("entry", "pl2")
        yield from faults("the collision", [
            (clicks < 20, True), (shown.answer("replay", run), "hazard two pl1\n"), (loaded, text),
            (alert, "Two trains are in section pl1: a collision. The run ends here. Go back to try "
                    "something else."),
            (after, "No train can enter at pl2: the run has ended in a hazard (hazard two pl1)."),
            (shown.page.ask("game.play.runText()"), "run 1\nstart\nenter pl1\nenter pl2\nend\n"),
            (shown.page.ask("document.body.className"), ""), (list(shown.page.faults()), [])])
        shown.click("#uncut")
        yield from faults("brought back", [(shown.page.ask("game.play.runText()"), text)])


@in_browser
def check_browser_queue(program, running, _):
    """A request that cannot lock yet is announced as persistent, and its locking is announced. The
    signs of a route's path, overlap and protecting points differ."""
    with Shown(program, running, model_checks.plants()["station"]) as shown:
        for line in ("enter b1", "mark r1", "mark r3", "mark r2"):
            shown.page.ask(f"game.askLine({line!r})")
        shown.page.ask("game.go(0)")
        shown.page.ask("game.begin(null, [], '')")
        for line in ("mark r1", "mark r2"):
            shown.page.ask(f"game.askLine({line!r})")
        queued = shown.text("said")
        waits = shown.page.ask("[...document.querySelectorAll('#routes .waits')][1].textContent")
        shown.page.ask("game.askLine('enter b1')")
        locked = shown.text("said")
        yield from faults("a queue", [
            ("Route r2 stays requested until it locks: its conflict r1 is locked" in queued, True),
            (waits.startswith("stays until it locks; waits: its conflict r1 is locked"), True),
            ("Route r2, requested before, is locked now." in queued, False),
            (list(shown.page.faults()), [])])
        shown.page.ask("game.askLine('mark r3')")
        locked = [locked, shown.text("said")]
        if not any("Route r2, requested before, is locked now." in words for words in locked):
            yield f"it isn't said that r2 is locked: {locked}"
    with Shown(program, running, model_checks.plants()["station-protected"]) as shown:
        shown.page.ask("game.choose('route', 0)")
        dashes = shown.page.ask(
            "['on', 'ov', 'pp'].map((kind) => { const one = document.querySelector(`.live "
            ".${kind}`);"
            "return one ? getComputedStyle(one).strokeDasharray : null; })")
        if dashes[0] != "none" or dashes[2] in (None, "none"):
            yield f"protecting points are drawn as the path: {dashes}"


@in_browser
def check_browser_reload(program, running, _):
    """A reload keeps the run and the place. If the address cannot keep the run, the browser asks."""
    with Shown(program, running, model_checks.plants()["station"]) as shown:
        for line in ("enter b1", "mark r1", "mark r3"):
            shown.page.ask(f"game.askLine({line!r})")
        shown.page.ask("game.go(4)")
        before = shown.page.ask("[runText(game.plant, null, game.play.events), game.play.place]")
        shown.page.call("Page.reload")
        time.sleep(0.5)
        after = shown.page.ask("[runText(game.plant, null, game.play.events), game.play.place]")
        asks = ("(() => { const leaving = new Event('beforeunload', { cancelable: true });"
                "window.dispatchEvent(leaving); return leaving.defaultPrevented; })()")
        short = shown.page.ask(asks)
        shown.page.ask("game.go(0); game.begin(null, [], ''); game.mode = 'none'; for (let n = 0; "
                       "n < 1600; n += 1) "
                       "{ game.play.add({ word: 'mark', number: 0 }); game.play.add({ word: "
                       "'cancel', number: 0 }); }"
                       "game.show()")
        yield from faults("a reload", [(after, before), (before[1], 4), (short, False),
                                       (shown.page.ask(asks), True), (list(shown.page.faults()), [])])
        shown.page.ask("game.isUnkept = false")


BAD_TEXTS = [
    ("run 1\nstart\nhead "
     "b1\nend\n", "Not a run at 1: No train can move on from b1: no train has its front in b1."),
    ("run 1\nstart\nenter b1\nenter "
     "zz\nend\n", "Line 4 is bad: “enter zz” does not name a section."),
    ("run 1\nstart\nenter b1\n", "Line 4 is bad: it is missing"), ("", "Line 1 is bad"),
    ("drive 1\nlock r1\nend\n", "Line 2 is bad"), ("<img src=x onerror=alert(1)>", "Line 1 is bad"),
    ("run 1\nstart\nenter <b>x</b>\nend\n", "Line 3 is bad: “enter <b>x</b>” does not name")]


@in_browser
def check_browser_texts(program, running, _):
    """Runs of verify and of a state, scenarios and links are loaded. Other texts are refused
    without a change."""
    given = model_checks.plants()["station"]
    state = (TOP / "examples/point-thrown-under-train.run").read_text()
    with Shown(program, running, given, "#run.1~start~enter.b1~end~") as shown:
        first = shown.page.ask("game.play.runText()")

        def load(text):
            shown.page.ask(f"document.getElementById('text').value = {json.dumps(text)}; "
                           "document.getElementById('load-text').click()")
            return shown.page.ask("game.play.runText()")
        for text, words in BAD_TEXTS:
            if load(text) != first or words not in shown.text("alert") \
                    or "Nothing was loaded." not in shown.text("alert"):
                yield f"{text!r}: {shown.text('alert')!r}"
        load("run 1\nstart\nenter b1\nenter b1\nend\n")
        offered = shown.text("offer")
        shown.click("#offer")
        scene = (TOP / "examples/station-crossing.scene").read_text()
        yield from faults("texts", [
            (first, "run 1\nstart\nenter b1\nend\n"), (offered, "Load the events before it (1)"),
            (load(f"unsafe steps=1 hazard=two "
                  f"x\n{state}"), state), (shown.text("own"), "hazard wrong p1"),
            (load(scene).count("\n"), 57), (shown.page.ask("linkOf(game.play.runText()).split('#')[1].slice(0, 18)"),
                                            "run.1~start~enter."),
            (list(shown.page.faults()), [])])
        link = shown.page.ask("linkOf(game.play.runText()).split('#')[1]")
        run = shown.page.ask("game.play.runText()")
        shown.page.open(shown.file)
        shown.page.ask(f"location.hash = {json.dumps(link)}")
        time.sleep(0.2)
        yield from faults("a link", [(shown.page.ask("game.play.runText()"), run)])


@in_browser
def check_browser_events(program, running, _):
    """Without automatic events each event has its button. A train moves step by step, or as far as
    its boards allow."""
    with Shown(program, running, model_checks.plants()["station"]) as shown:
        shown.click("input[value=none]")
        shown.press("entry", "b1")
        shown.press("board", "m1")
        shown.press("board", "m5")
        shown.button("Allocate")
        shown.button("Lock")
        refused = shown.text("alert")
        shown.press("section", "p1")
        shown.button("Throw")
        shown.button("Settle")
        shown.page.ask("game.choose('route', 1)")
        shown.button("Lock")
        shown.click("[data-kind=train][data-number='1']")
        shown.page.ask("game.choose('route', 1)")
        shown.button("Sense")
        shown.button("Run on")
        run = shown.page.ask("game.play.done.map((event) => eventLine(game.plant, "
                             "event)).join(',')")
        yield from faults("events", [
            (refused, "r2 cannot be locked: points p1 are in position plus and do not move to "
                      "minus yet."),
            (run, "enter b1,mark r2,allocate r2,throw p1,settle p1,lock r2,head b1,sense r2,tail "
                  "b1,head p1,"
                  "tail p1")])
        shown.click("input[value=plant]")
        yield from faults("routes go on by themselves", [
            (shown.page.ask("game.state.mode[1]"), "free"), (list(shown.page.faults()), [])])


BrowserTests = test_case("BrowserTests", [check_browser_model, check_browser_crossing, check_browser_refused, check_browser_collision,
          check_browser_texts, check_browser_events, check_browser_queue, check_browser_reload])


def tearDownModule():
    close()
