"""A page in a headless browser, as a test plays it."""

import json
import subprocess
import tempfile
import time
from pathlib import Path
from unittest import SkipTest

from tests.support import browser
from tests.support import devtools
from tests.simulate.page_tests import page

SECONDS = 10            # to wait for automatic effects


class Shown:
    """A plant's page in a browser, with a directory for saved files."""

    def __init__(self, program, running, given, fragment="", **size):
        self.room = tempfile.TemporaryDirectory(prefix="irv-shown-")
        self.folder = Path(self.room.name)
        self.given, self.program, self.running = given, program, running
        self.file = self.folder / "page.html"
        self.file.write_text(page(program, given)[0], encoding="utf-8")
        self.page = running.page(**size)
        running.call("Browser.setDownloadBehavior", behavior="allow", downloadPath=str(self.folder))
        self.page.open(self.file, fragment)
        self.clicks = 0

    def __enter__(self):
        return self

    def __exit__(self, *_):
        self.running.call("Target.closeTarget", targetId=self.page.target)
        self.room.cleanup()

    def click(self, *selectors):
        """Clicks elements in order."""
        for selector in selectors:
            self.page.click(selector)
            self.clicks += 1

    def sign(self, kind, name):
        """Returns the selector of a named sign of the plan."""
        number = self.page.ask(
            f"({{board: game.plant.named.board, section: game.plant.named.section, entry: "
            f"game.plant.named.section}})[{json.dumps(kind)}].get({json.dumps(name)})")
        return f"[data-kind={kind}][data-number='{number}']"

    def press(self, kind, name):
        """Clicks a sign of the plan."""
        self.click(self.sign(kind, name))

    def button(self, words):
        """Clicks a visible button by its words."""
        is_there = self.page.ask(
            f"(() => {{ const one = [...document.querySelectorAll('button')].find((one) => "
            f"one.textContent === "
            f"{json.dumps(words)} && one.getClientRects().length); "
            f"one?.setAttribute('data-wanted', '1');"
            "return one !== undefined; })()")
        if not is_there:
            raise devtools.Trouble(f"there is no button {words}; chosen is {self.text('chosen')!r}")
        self.click("[data-wanted]")
        self.page.ask("document.querySelector('[data-wanted]')?.removeAttribute('data-wanted')")

    def text(self, id_):
        """Returns an element's text."""
        return self.page.ask(f"document.getElementById({json.dumps(id_)}).textContent")

    def saved(self, id_, end):
        """Clicks a button that saves a file. Returns the saved file, or `None`."""
        self.click(f"#{id_}")
        stop = time.monotonic() + SECONDS
        while time.monotonic() < stop:
            found = list(self.folder.glob(f"*{end}"))
            if found and found[0].stat().st_size:
                return found[0]
            time.sleep(0.05)
        return None

    def load(self, file):
        """Loads a file by the page's field for it."""
        root = self.page.call("DOM.getDocument")["root"]["nodeId"]
        node = self.page.call("DOM.querySelector", nodeId=root, selector="#file")["nodeId"]
        before = self.text("said") + self.text("alert")
        self.page.call("DOM.setFileInputFiles", nodeId=node, files=[str(file)])
        stop = time.monotonic() + SECONDS
        while time.monotonic() < stop and self.text("said") + self.text("alert") == before:
            time.sleep(0.02)

    def answer(self, command, file):
        """Returns the program's answer to a file."""
        done = subprocess.run([self.program, command, "--columns", "free", "--run", file], input=self.given,
                              capture_output=True, check=False)
        return done.stdout.decode()


RUNNING = []            # the shared browser of all tests, on demand


def close():
    """Ends the running browser, if any."""
    for running in RUNNING:
        running.close()


def in_browser(trial):
    """Returns a test that takes a browser, and is skipped without one."""
    def tried(program, is_long):
        found = browser.find()
        if found is None:
            raise SkipTest("no browser is installed (Debian's package chromium)")
        if not RUNNING:
            RUNNING.append(devtools.Browser(found))
        try:
            return (yield from trial(program, RUNNING[0], is_long))
        except devtools.Trouble as fault:
            yield str(fault)
            return None
    tried.__name__, tried.__doc__ = trial.__name__, trial.__doc__
    return tried


def faults(what, pairs):
    """Returns the faults of pairs of actual and expected values that differ."""
    return [f"{what}: {is_!r}, and not {wanted!r}" for is_, wanted in pairs if is_ != wanted]
