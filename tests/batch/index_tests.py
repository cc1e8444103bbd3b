"""Browser tests of the index: sorting, filtering, no script, phone and dark mode."""

import tempfile
from pathlib import Path

from irvtools.batch.report_page import page
from irvtools.calls.verdict import HAZARD_FOUND
from tests.batch.verdict_tests import CONFIGURATIONS, the_report
from tests.batch.workspace import differs
from tests.support import browser, devtools
from tests.support.harness import Test

PHONE, WIDE = (390, 800), (1400, 1000)
LEAST_CONTRAST = 4.5
SHOWN = ("[...document.querySelectorAll('table.index tbody tr')]"
         ".filter(row => row.getClientRects().length)")
NAMES = SHOWN + ".map(row => row.querySelector('td.name').textContent)"
SORT = (
    "[...document.querySelectorAll('table.index th button')]"
    ".find(one => one.textContent === '{}').click();"
    "[...document.querySelectorAll('table.index tbody tr')].map(row => row.cells[{}].textContent)")
FILTER = ("(() => {{ const one = document.querySelector('{}'); one.value = '{}';"
          " one.dispatchEvent(new Event('{}')); }})()")
# the texts with too little contrast to their background
CONTRAST = """(() => {
  const numbers = colour => colour.match(/[0-9.]+/g).map(Number);
  const light = colour => { const [r, g, b] = numbers(colour).map(one => one / 255)
    .map(one => one <= 0.03928 ? one / 12.92 : ((one + 0.055) / 1.055) ** 2.4);
    return 0.2126 * r + 0.7152 * g + 0.0722 * b; };
  const behind = one => { for (; one; one = one.parentElement) {
    const colour = getComputedStyle(one).backgroundColor;
    const all = numbers(colour); if (all.length < 4 || all[3] > 0) return colour; }
    return 'rgb(255,255,255)'; };
  const wrong = [];
  for (const one of document.querySelectorAll('body *')) {
    if (!one.getClientRects().length || ![...one.childNodes].some(node => node.nodeType === 3
        && node.textContent.trim())) continue;
    const [a, b] = [light(getComputedStyle(one).color), light(behind(one))].sort((x, y) => y - x);
    const ratio = (a + 0.05) / (b + 0.05);
    const words = one.textContent.slice(0, 30);
    if (ratio < LEAST) wrong.push(`${one.tagName} ${one.className} ${words} ${ratio}`);
  }
  return [...new Set(wrong)].slice(0, 5);
})()""".replace("LEAST", str(LEAST_CONTRAST))
TOO_WIDE = """[...document.querySelectorAll('body *')].filter(one => one.getClientRects().length
  && one.getBoundingClientRect().right > document.documentElement.clientWidth + 1)
  .map(one => `${one.tagName} ${one.textContent.slice(0, 30)}`).slice(0, 5)"""


class IndexTests(Test):
    """Browser tests of the index."""

    def setUp(self):
        """Writes the index and starts a browser."""
        file = browser.find()
        if file is None:
            self.skipTest("no browser is installed (Debian's package chromium)")
        room = tempfile.TemporaryDirectory(prefix="irv-batch-test-")
        self.addCleanup(room.cleanup)
        self.file = Path(room.name, "index.html")
        self.file.write_text(page(the_report()), encoding="utf-8")
        self.browser = devtools.Browser(file)
        self.addCleanup(self.browser.close)

    def opened(self, size=WIDE, **features):
        """Returns the page at a size, with media features."""
        shown = self.browser.page(*size, **features)
        if size == PHONE:
            shown.resize(*size, touch=True)
        shown.open(self.file)
        return shown

    def test_sorts(self):
        """A click on a title sorts by its column, and another click reverses this. The first column
        restores the page's order."""
        shown = self.opened()
        first = shown.ask(NAMES)
        up, down = (shown.ask(SORT.format("configuration", 1)) for _ in range(2))
        shown.ask(SORT.format("seconds", 7))
        numbers = shown.ask(SORT.format("seconds", 7))
        shown.ask(SORT.format("verdict", 0))
        self.see([
            *differs("up", up, sorted(first)), *differs("down", down,
                                                        sorted(first)[::-1]),
            *differs("numbers", [float(one)
                                 for one in numbers], sorted(map(float, numbers), reverse=True)),
            *differs("the first order", shown.ask(NAMES), first), *shown.faults()
        ])

    def test_filters(self):
        """The chosen text and verdict hide the other rows, and the page prints how many are shown."""
        shown = self.opened()
        all_ = len(CONFIGURATIONS)
        hazards = [name for name, _, word, _ in CONFIGURATIONS if word == HAZARD_FOUND]
        shown.ask(FILTER.format("select", HAZARD_FOUND, "change"))
        found = shown.ask(NAMES), shown.ask("document.querySelector('output').value")
        faults = [*differs("hazards", (sorted(found[0]), found[1]),
                           (sorted(hazards), f"{len(hazards)} of {all_} configurations"))]
        shown.ask(FILTER.format("input", "UNSAFE steps", "input"))
        faults += differs("text", shown.ask(NAMES), ["unsafe"])
        shown.ask(FILTER.format("select", "", "change") + ";" + FILTER.format("input", "", "input"))
        self.see([*faults, *differs("all", len(shown.ask(NAMES)), all_), *shown.faults()])

    def test_without_script(self):
        """Without its script the page has all rows, worst first, and no dead controls."""
        shown = self.browser.page(*WIDE)
        shown.call("Emulation.setScriptExecutionDisabled", value=True)
        shown.call("Page.navigate", url=self.file.resolve().as_uri())
        words = [word for _, _, word, _ in CONFIGURATIONS]
        found = until(lambda: shown.ask(SHOWN + ".map(row => row.dataset.word)"), len)
        buttons = shown.ask("document.querySelectorAll('button').length"
                            " + document.querySelector('.tools').getClientRects().length")
        self.see([*differs("rows", found, words), *differs("controls", buttons, 0)])

    def test_phone(self):
        """At 390 pixels the layout fits, and nothing is wider than the screen."""
        shown = self.opened(PHONE)
        width = shown.ask("[innerWidth, document.documentElement.scrollWidth]")
        self.see([*differs("width", width, [390, 390]), *shown.ask(TOO_WIDE), *shown.faults()])

    def test_contrast(self):
        """Each text has enough contrast in light and dark mode, and the dark page is dark."""
        faults = []
        for scheme, is_dark in (("light", False), ("dark", True)):
            shown = self.opened(prefers_color_scheme=scheme)
            ground = shown.ask(
                "getComputedStyle(document.body).backgroundColor.match(/[0-9]+/g).map(Number)")
            faults += [f"{scheme}: {each}" for each in shown.ask(CONTRAST)]
            faults += differs(f"{scheme}: dark", max(ground) < 100, is_dark)
        self.see(faults)

    def test_focus(self):
        """Titles and filters work by keyboard."""
        shown = self.opened()
        shown.ask("document.querySelector('input').focus()")
        shown.write("unsafe")
        found = shown.ask(NAMES)
        shown.ask("document.querySelectorAll('table.index th button')[1].focus()")
        shown.key("Enter")
        state = shown.ask(
            "document.querySelectorAll('table.index th')[1].getAttribute('aria-sort')")
        self.see([*differs("written", found, ["unsafe"]), *differs("sorted", state, "ascending")])


def until(ask, is_there, tries=500):
    """Returns the first answer that satisfies `is_there`, or the last after `tries`."""
    for _ in range(tries):
        found = ask()
        if is_there(found or ()):
            return found
    return found
