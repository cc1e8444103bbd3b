"""Tests of the simulator in a headless browser: without mouse, without colours, at other sizes, and
with the largest plants."""

import json
import time

from tests.simulate import model_checks
from tests.simulate.page_tests import largest
from tests.simulate.browser_page import Shown, close, faults, in_browser
from tests.support.harness import test_case


@in_browser
def check_browser_keys(program, running, _):
    """Keys alone reach the plan and its signs, enter a train, set a route, and undo and redo."""
    with Shown(program, running, model_checks.plants()["station"]) as shown:
        one = shown.page
        for _ in range(40):
            one.key("Tab")
            if one.ask("document.activeElement.closest('[data-kind]') !== null"):
                break
        for _ in range(20):
            one.key("ArrowLeft")
        one.key("Enter")
        entered = one.ask("document.activeElement.getAttribute('aria-label')"), shown.text("place")
        while_ = [one.ask("document.activeElement.getAttribute('aria-label')")]
        for _ in range(4):
            if "Board m1" in while_[-1]:
                break
            one.key("ArrowRight")
            while_.append(one.ask("document.activeElement.getAttribute('aria-label')"))
        one.ask(f"game.plan.focus(document.querySelector({json.dumps(shown.sign('board', 'm1'))}))")
        one.key("Enter")
        chosen = shown.text("said")
        one.ask(f"game.plan.focus(document.querySelector({json.dumps(shown.sign('board', 'm3'))}))")
        one.key(" ")
        after = shown.text("place")
        one.key("Escape")
        one.ask("document.activeElement.blur()")
        one.key("Home")
        unmoved = one.ask("game.play.place")
        one.ask("document.getElementById('run').focus()")
        places = []
        for key in ("ArrowLeft", "Home", "ArrowRight", "PageDown", "End", "PageUp", "ArrowDown", "ArrowUp"):
            one.key(key)
            places.append(one.ask("game.play.place"))
        one.key("z", modifiers=2)
        places.append(one.ask("game.play.place"))
        one.ask("document.getElementById('event').focus()")
        one.write("enter b2")
        one.key("ArrowLeft")
        one.key("Enter")
        yield from faults("keys", [
            (entered, ("Train enters at "
                       "b1", "1 of 1")), (any("Board m1" in words for words in while_), True),
            (chosen, "Board m1 on b1 for trains that run up, closed"), (after, "12 of 12"),
            (unmoved, 12), (places, [11, 0, 1, 12, 12, 1, 2, 1, 0]), (one.ask("game.play.events.length"), 1),
            (one.ask("eventLine(game.plant, "
                     "game.play.events[0])"), "enter b2"), (list(one.faults()), [])])


def names_of(one):
    """Returns a screen reader's roles and names."""
    one.call("Accessibility.enable")
    nodes = one.call("Accessibility.getFullAXTree")["nodes"]
    return [(node.get("role", {}).get("value"), node.get("name", {}).get("value", ""))
            for node in nodes if not node.get("ignored")]


CONTROLS = ("button", "textbox", "searchbox", "radio", "checkbox", "listbox", "link")


@in_browser
def check_browser_reader(program, running, _):
    """Each plan sign and control has a name for a screen reader."""
    with Shown(program, running, model_checks.plants()["station-protected"]) as shown:
        shown.press("entry", "b1")
        shown.page.ask("game.askLine('mark r2')")
        told = names_of(shown.page)
        yield from (f"a {role} without a "
                    f"name" for role, name in told if role in CONTROLS and not name)
        for words in ("Board m1 on b1 for trains that run up, closed", "Train enters at b2",
                      "Points p1, in position minus, free, "
                      "vacant", "Train 1, up, in t2, waiting at board m5",
                      "Section t2, free, occupied by train 1"):
            if ("button", words) not in told:
                yield f"{words!r} isn't told"
        live = shown.page.ask("['alert', 'said', 'blocked'].map((id) => document.getElementById(id)"
                              ".getAttribute('role')).join()")
        yield from faults("live", [(live, "alert,status,status")])


FINGER = 24             # the least size of a touch target
MOST_WORK = 50          # milliseconds to show an event
SIZES = {"a desk": (1400, 1000, False), "400 percent": (350, 250, False), "a tablet": (820, 1180, True),
         "a telephone": (390, 800, True)}


@in_browser
def check_browser_sizes(program, running, _):
    """At 400 percent and on a tablet nothing is cut, signs are large enough for a finger, and a
    touch is a click."""
    for name in ("station", "terminus-throat"):
        with Shown(program, running, model_checks.plants()[name]) as shown:
            one = shown.page
            for size, (width, height, touch) in SIZES.items():
                one.resize(width, height, touch)
                one.call("Emulation.setTouchEmulationEnabled", enabled=touch)
                wide = one.ask("document.documentElement.scrollWidth - "
                               "document.documentElement.clientWidth")
                small = one.ask(
                    "[...document.querySelectorAll('circle.hit, button')].filter((one) => "
                    "one.getClientRects().length).map((one) => { const box = "
                    "one.getBoundingClientRect();"
                    "return Math.min(box.width, box.height); }).reduce((a, b) => Math.min(a, b))")
                if wide > 0 or touch and small < FINGER:
                    yield f"{name}, {size}: {wide} too wide, the least sign has {small}"
            one.resize(820, 1180, True)
            one.call("Emulation.setTouchEmulationEnabled", enabled=True)
            border = "b1" if name == "station" else "UM3"
            x, y = one.box(shown.sign("entry", border))
            one.call("Input.dispatchTouchEvent", type="touchStart", touchPoints=[{"x": x, "y": y}])
            one.call("Input.dispatchTouchEvent", type="touchEnd", touchPoints=[])
            time.sleep(0.2)
            yield from faults("a touch", [(shown.text("place"), "1 of 1")])


# the texts with too little contrast to their background
CONTRAST = """(() => {
  const value = (colour) => colour.match(/[\\d.]+/g).map(Number);
  const part = (v) => (v <= 0.03928 ? v / 12.92 : ((v + 0.055) / 1.055) ** 2.4);
  const light = ([r, g, b]) => 0.2126 * part(r / 255) + 0.7152 * part(g / 255) + 0.0722 * part(b / 255);
  const ground = (node) => {
    for (let at = node; at; at = at.parentElement) {
      const found = value(getComputedStyle(at).backgroundColor);
      if (found.length < 4 || found[3] > 0) return found;
    }
    return [255, 255, 255];
  };
  const ratio = (a, b) => (Math.max(light(a), light(b)) + 0.05) / (Math.min(light(a), light(b)) + 0.05);
  const low = [];
  for (const node of document.querySelectorAll("body *")) {
    if (!node.getClientRects().length || node.closest("script, defs, noscript")) continue;
    if (![...node.childNodes].some((one) => one.nodeType === 3 && one.data.trim())) continue;
    const { fill, color } = getComputedStyle(node);
    const found = ratio(value(node.closest("svg") ? fill : color), ground(node.closest("svg") ?? node));
    if (found < 4.5) low.push(`${node.outerHTML.slice(0, 60)} ${found.toFixed(1)}`);
  }
  return [...new Set(low)].slice(0, 6);
})()"""
# the drawings of an open and a closed board
SHAPES = """["open", "closed"].map((kind) => [...document.querySelector(`.board.${kind}`).children]
  .filter((one) => getComputedStyle(one).display !== "none" && !one.matches(".hit, .target"))
  .map((one) => one.tagName).join("+"))"""
IN_USE = ("enter b1", "mark r1", "allocate "
                                 "r1", "lock r1", "head b1", "sense r1", "mark r3", "allocate r3",
          "lock r3", "mark r2")


@in_browser
def check_browser_dark(program, running, _):
    """In light and dark mode each text has enough contrast. Colour differences are also shape
    differences."""
    for scheme in ("light", "dark"):
        with Shown(program, running, model_checks.plants()["station"], prefers_color_scheme=scheme) as shown:
            shown.click("input[value=none]")
            for words in IN_USE:
                shown.page.ask(f"game.askLine({words!r})")
            shown.press("section", "p2")
            shown.page.ask("game.askLine('lock r2')")
            yield from (f"{scheme}: {low}" for low in shown.page.ask(CONTRAST))
            letters = "[...document.querySelectorAll('.live .letter')].map((one) => one.textContent).join()"
            yield from faults(scheme, [(shown.page.ask(letters), ",U,L,,L,L"),
                                       (shown.page.ask(SHAPES), ["circle+path", "rect+path"])])


@in_browser
def check_browser_largest(program, running, is_long):
    """With 256 sections and 256 routes an event is shown within 50 ms of the page's work, and
    search finds a route. With `--long` the times are printed."""
    for name, given in largest().items():
        with Shown(program, running, given) as shown:
            one = shown.page
            one.ask("document.getElementById('search').focus()")
            route = one.ask("game.plant.routes[200].name")
            one.write(route)
            found = one.ask("game.routes.rows.filter(({node}) => !node.hidden).length")
            yield from faults(name, [(found >= 1, True), (one.ask("game.routes.rows[200].node.hidden"), False)])
            for word, clock, work in times(one):
                if is_long:
                    print(f"{name}: {word} {clock:.0f} ms, at work {work:.0f} ms")
                if work > MOST_WORK:
                    yield f"{name}: {word} takes {work:.0f} ms of work"
            yield from (f"{name}: {fault}" for fault in one.faults())


# the lines of a train that enters at a border, and of a route set for it
FIRST = """(() => {
  const border = game.plant.borders.find((x) => game.plant.board(x, game.plant.inward[x]) !== undefined);
  const { name } = game.plant.routes[game.plant.routesFrom[game.plant.board(border, game.plant.inward[border])][0]];
  game.mode = "none";
  return [`enter ${game.plant.name(border)}`, `mark ${name}`, `allocate ${name}`, `lock ${name}`,
    `head ${game.plant.name(border)}`, `sense ${name}`];
})()"""
# an event, and the next picture
SHOW = """(async () => {
  const begin = performance.now();
  game.askLine(LINE);
  await new Promise((done) => requestAnimationFrame(() => setTimeout(done)));
  return performance.now() - begin;
})()"""


def times(one):
    """Returns some events, each with the wall-clock milliseconds until it is shown, and the page
    thread's."""
    one.measure()
    for words in one.ask(FIRST):
        before = one.busy()
        clock = one.ask(SHOW.replace("LINE", json.dumps(words)))
        yield words.split(" ")[0], clock, one.busy() - before


AccessibilityTests = test_case("AccessibilityTests", [check_browser_keys, check_browser_reader, check_browser_sizes, check_browser_dark,
          check_browser_largest])


def tearDownModule():
    close()
