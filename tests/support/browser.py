"""A page in a headless browser: its console, and its plans' text positions."""

import re
import shutil
import subprocess
import tempfile
from pathlib import Path

NAMES = ("chromium", "chromium-browser", "google-chrome", "google-chrome-stable")
SECONDS = 120

# appended to a copy of the page; writes the faults into the document
MEASURE = """<pre id="measured"></pre><script>
const wrong = [];
for (const plan of document.querySelectorAll("svg.plan")) {
  for (const window_ of plan.querySelectorAll(":scope > svg")) {
    const frame = window_.getBoundingClientRect();
    const names = [...window_.querySelectorAll("use")].filter(u => (u.getAttribute("href") || "")
      .startsWith("#names")).map(u => u.getBoundingClientRect()).filter(b => b.width > 0);
    for (const box of names) {
      if (box.left < frame.left - 1 || box.right > frame.right + 1 || box.top < frame.top - 1
          || box.bottom > frame.bottom + 1) wrong.push("names leave their frame");
    }
  }
  if (plan.getBoundingClientRect().width > document.documentElement.clientWidth)
    wrong.push("a plan is wider than the page");
}
// the names themselves, once shown by a drawing of their own
const shown = document.createElementNS("http://www.w3.org/2000/svg", "svg");
shown.setAttribute("width", 9000); shown.setAttribute("height", 9000);
document.body.appendChild(shown);
for (const group of document.querySelectorAll("defs > g[id^=names]")) {
  const copy = group.cloneNode(true); shown.appendChild(copy);
  const boxes = [...copy.querySelectorAll("text")].map(t => [t.textContent, t.getBBox()]);
  for (let i = 0; i < boxes.length; i++) for (let j = 0; j < i; j++) {
    const [a, p] = boxes[i], [b, q] = boxes[j];
    if (p.x + 0.5 < q.x + q.width && q.x + 0.5 < p.x + p.width
        && p.y + 3 < q.y + q.height && q.y + 3 < p.y + p.height) wrong.push(a + " lies on " + b);
  }
  copy.remove();
}
shown.remove();
for (const cell of document.querySelectorAll("td, th"))
  if (cell.textContent.trim().length > 12 && cell.getBoundingClientRect().width < 60)
    wrong.push("a column of a few letters: " + cell.textContent.trim().slice(0, 40));
if (document.documentElement.scrollWidth > document.documentElement.clientWidth + 1)
  wrong.push("the page is wider than its window");
document.getElementById("measured").textContent =
  "measured " + document.querySelectorAll("svg.plan").length + " plans|" + [...new Set(wrong)].join("|");
</script>"""


def find():
    """Returns the browser, or `None` if there is none."""
    return next((path for path in map(shutil.which, NAMES) if path), None)


def said(browser, file, width=1600):
    """Returns the document of a displayed file, and its console lines."""
    with tempfile.TemporaryDirectory(prefix="irv-browser-") as room:
        done = subprocess.run(
            [browser, "--headless", "--no-sandbox", "--disable-gpu", f"--user-data-dir={room}",
             f"--window-size={width},1200", "--enable-logging=stderr", "--dump-dom",
             Path(file).resolve().as_uri()],
            capture_output=True, text=True, timeout=SECONDS, check=False)
    console = [line for line in done.stderr.splitlines() if "CONSOLE" in line]
    return done.stdout, console


def faults(browser, page):
    """Yields the faults of a page in a browser."""
    with tempfile.TemporaryDirectory(prefix="irv-page-") as room:
        file = Path(room, "page.html")
        file.write_text(page, encoding="utf-8")
        _, console = said(browser, file)
        yield from (f"console: {line}" for line in console)
        file.write_text(page.replace("</body>", MEASURE + "</body>"), encoding="utf-8")
        document, _ = said(browser, file)
        match = re.search(r'<pre id="measured">measured (\d+) plans\|(.*?)</pre>', document, re.S)
        if not match or match[1] == "0":
            yield "the plans weren't measured"
        elif match[2]:
            yield from match[2].split("|")


def sheets(browser, page):
    """Returns the width and height in points of a page's sheets on paper."""
    with tempfile.TemporaryDirectory(prefix="irv-paper-") as room:
        file, paper = Path(room, "page.html"), Path(room, "page.pdf")
        file.write_text(page, encoding="utf-8")
        subprocess.run([browser, "--headless", "--no-sandbox", "--disable-gpu",
                        f"--user-data-dir={room}/browser", "--no-pdf-header-footer",
                        f"--print-to-pdf={paper}", file.as_uri()],
                       capture_output=True, timeout=SECONDS, check=False)
        boxes = re.findall(rb"/MediaBox\s*\[\s*0\s+0\s+([0-9.]+)\s+([0-9.]+)\s*\]", paper.read_bytes())
    return [(float(width), float(height)) for width, height in boxes]
