"""A headless browser, driven over a pipe by its developer tools' protocol.

Debian's drivers need a port and a further program. The pipe needs neither, so tests can run in
parallel.
"""

import base64
import json
import os
import select
import subprocess
import tempfile
import time
from pathlib import Path

SECONDS = 120
WORDS = ("--headless", "--no-sandbox", "--disable-gpu", "--hide-scrollbars", "--no-first-run",
         "--disable-extensions", "--disable-background-networking", "--remote-debugging-pipe")


class Trouble(Exception):
    """A refusal or a timeout of the browser."""


class Browser:
    """A browser that runs until it is closed."""

    def __init__(self, file):
        self.room = tempfile.TemporaryDirectory(prefix="irv-browser-", ignore_cleanup_errors=True)
        theirs_in, self.sink = os.pipe()
        self.source, theirs_out = os.pipe()
        # the browser reads from descriptor 3 and writes to 4
        call = f'exec "$@" 3<&{theirs_in} 4>&{theirs_out}'
        self.process = subprocess.Popen(
            ["bash", "-c", call, "bash", file, *WORDS, f"--user-data-dir={self.room.name}", "about:blank"],
            pass_fds=(theirs_in, theirs_out), stdin=subprocess.DEVNULL, stdout=subprocess.DEVNULL,
            stderr=subprocess.DEVNULL)
        os.close(theirs_in)
        os.close(theirs_out)
        self.count, self.rest, self.events = 0, b"", []

    def close(self):
        """Ends the browser."""
        self.process.terminate()
        try:
            self.process.wait(10)
        except subprocess.TimeoutExpired:
            self.process.kill()
            self.process.wait()
        os.close(self.sink)
        os.close(self.source)
        self.room.cleanup()

    def message(self, end):
        """Returns the browser's next message."""
        while b"\0" not in self.rest:
            if not select.select([self.source], [], [], max(0, end - time.monotonic()))[0]:
                raise Trouble("the browser doesn't answer")
            piece = os.read(self.source, 1 << 20)
            if not piece:
                raise Trouble("the browser ended")
            self.rest += piece
        one, _, self.rest = self.rest.partition(b"\0")
        return json.loads(one)

    def call(self, method, session=None, **given):
        """Calls the browser and returns its answer."""
        self.count += 1
        call = {"id": self.count, "method": method, "params": given}
        if session:
            call["sessionId"] = session
        data = json.dumps(call).encode() + b"\0"
        while data:
            data = data[os.write(self.sink, data):]
        end = time.monotonic() + SECONDS
        while True:
            message = self.message(end)
            if message.get("id") == self.count:
                if "error" in message:
                    raise Trouble(f"{method}: {message['error']}")
                return message["result"]
            self.events.append(message)

    def page(self, width=1400, height=1000, **features):
        """Returns a new page of a size, with media features."""
        target = self.call("Target.createTarget", url="about:blank")["targetId"]
        session = self.call("Target.attachToTarget", targetId=target, flatten=True)["sessionId"]
        return Page(self, target, session, (width, height), features)


class Page:
    """A page in the browser."""

    def __init__(self, browser, target, session, size, features):
        self.browser, self.target, self.session = browser, target, session
        for domain in ("Page", "Runtime", "Log", "Network"):
            self.call(f"{domain}.enable")
        self.resize(*size)
        self.call("Emulation.setEmulatedMedia",
                  features=[{"name": name.replace("_", "-"), "value": value}
                            for name, value in features.items()])

    def call(self, method, **given):
        """Calls the browser about this page."""
        return self.browser.call(method, self.session, **given)

    def resize(self, width, height, touch=False):
        """Resizes the page, as on a tablet or when zoomed."""
        self.call("Emulation.setDeviceMetricsOverride", width=width, height=height, deviceScaleFactor=1,
                  mobile=touch)

    def open(self, file, fragment=""):
        """Opens a file and waits until it is loaded."""
        self.browser.events = []
        url = Path(file).resolve().as_uri() + fragment
        self.call("Page.navigate", url=url)
        end = time.monotonic() + SECONDS
        while self.ask("document.readyState") != "complete":
            if time.monotonic() > end:
                raise Trouble(f"{url} isn't there in time")
            time.sleep(0.02)

    def ask(self, expression):
        """Returns the value of an expression on the page."""
        done = self.call("Runtime.evaluate", expression=expression, returnByValue=True, awaitPromise=True)
        if "exceptionDetails" in done:
            raise Trouble(json.dumps(done["exceptionDetails"])[:2000])
        return done["result"].get("value")

    def measure(self):
        """Starts the measurement for `busy`."""
        self.call("Performance.enable", timeDomain="threadTicks")

    def busy(self):
        """Returns the CPU milliseconds of the page's thread."""
        found = {one["name"]: one["value"] for one in self.call("Performance.getMetrics")["metrics"]}
        return 1000 * found["TaskDuration"]

    def faults(self):
        """Yields the page's console output and its external requests."""
        for event in self.browser.events:
            kind, given = event.get("method"), event.get("params", {})
            if kind == "Runtime.exceptionThrown":
                yield f"exception: {json.dumps(given['exceptionDetails'])[:500]}"
            elif kind in ("Runtime.consoleAPICalled", "Log.entryAdded"):
                yield f"console: {json.dumps(given)[:500]}"
            elif kind == "Network.requestWillBeSent" and not given["request"]["url"].startswith(
                    ("file:", "blob:", "data:")):
                yield f"asks for {given['request']['url']}"

    def box(self, selector):
        """Scrolls the element of a selector into view. Returns its middle."""
        place = self.ask(
            f"(async () => {{ const one = [...document.querySelectorAll({json.dumps(selector)})]"
            ".find((each) => each.getClientRects().length); if (!one) return null;"
            "one.scrollIntoView({block: 'center', inline: 'center'});"
            # waits for the new layout, or the click meets the old one
            "for (let n = 0; n < 2; n += 1) await new Promise((done) => "
            "requestAnimationFrame(done));"
            "const box = (one.querySelector('circle.hit, circle.g') ?? "
            "one).getBoundingClientRect();"
            "return [box.x + box.width / 2, box.y + box.height / 2]; })()")
        if place is None:
            raise Trouble(f"nothing is {selector}")
        return place

    def click(self, selector):
        """Clicks the middle of an element."""
        x, y = self.box(selector)
        for kind in ("mousePressed", "mouseReleased"):
            self.call("Input.dispatchMouseEvent", type=kind, x=x, y=y, button="left", clickCount=1)

    def key(self, key, *, modifiers=0):
        """Presses and releases a key."""
        text = {"Enter": "\r", " ": " "}.get(key, key if len(key) == 1 and not modifiers else "")
        code = {"Enter": 13, " ": 32, "Tab": 9, "Escape": 27, "ArrowLeft": 37, "ArrowUp": 38,
                "ArrowRight": 39, "ArrowDown": 40, "Home": 36, "End": 35, "PageUp": 33,
                "PageDown": 34}.get(key, ord(key[0].upper()))
        given = {"key": key, "modifiers": modifiers, "windowsVirtualKeyCode": code}
        self.call("Input.dispatchKeyEvent", type="keyDown", text=text, **given)
        self.call("Input.dispatchKeyEvent", type="keyUp", **given)

    def write(self, words):
        """Types text into the focused element."""
        self.call("Input.insertText", text=words)

    def picture(self, file):
        """Writes a screenshot to a file."""
        data = self.call("Page.captureScreenshot", format="png")["data"]
        Path(file).write_bytes(base64.b64decode(data))
