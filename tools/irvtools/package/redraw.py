"""Makes a package's pages and script from its answers: at first, and again for checking, as
`python3 -m irvtools.package.redraw PACKAGE OUT`."""

from __future__ import annotations

import shutil
import sys
from pathlib import Path

from irvtools.calls import provenance
from irvtools.package.findings import Findings
from irvtools.package.package_page import PackagePage
from irvtools.package.recorded_calls import Call, read_record, run
from irvtools.package.repeat_script import repeat_script
from irvtools.paths import TOP

INDEX, SCRIPT, REPORT, REPORT_CERTIFICATE = "index.html", "repeat.sh", "report.html", "report.cert"
CERTIFICATE, VERSION, HTML = "verify.cert", "version.txt", "tools/html"
# The report's inputs.
INPUTS = ("configuration.json", "program", "runs", "search.run", VERSION)


def draw_report(room: Path, words: list[str]) -> tuple[int, bytes, bytes]:
    """Writes the report in a directory, with these arguments. Returns status, output and errors.
    The report quotes the version file, and names no path outside the package."""
    place = f"{room.resolve()}/"
    own = [sys.executable, str(TOP / HTML), *words[2:]]
    status, *said = run(own, room, **{provenance.VERSION_FILE: str(room.resolve() / VERSION)})
    (room / REPORT_CERTIFICATE).unlink(missing_ok=True)
    report = room / REPORT
    if report.is_file():
        text = report.read_text(encoding="utf-8", errors="replace")
        text = text.replace(place, "").replace(REPORT_CERTIFICATE, CERTIFICATE)
        report.write_text(text, encoding="utf-8")
    output, errors = (it.replace(place.encode(), b"") for it in said)
    return status, output, errors


def draw_pages(room: Path, out: Path) -> list[Call]:
    """Writes a package's page and script into `out`. Returns its calls."""
    facts, calls = read_record(room)
    version = (room / VERSION).read_text(encoding="utf-8").splitlines()
    page = PackagePage(room, facts, Findings(room, calls), version)
    (out / INDEX).write_text(page.whole(), encoding="utf-8")
    (out / SCRIPT).write_text(repeat_script(room, calls, version), encoding="utf-8")
    (out / SCRIPT).chmod(0o755)
    return calls


def main(words: list[str]) -> int:
    """Repeats a package's pages and script in another directory."""
    room, out = map(Path, words)
    calls = draw_pages(room, out)
    for name in INPUTS:
        if (room / name).is_dir():
            shutil.copytree(room / name, out / name)
        elif (room / name).is_file():
            shutil.copy(room / name, out / name)
    draw_report(out, next(call.words for call in calls if call.name == "report"))
    return 0


if __name__ == "__main__":
    sys.exit(main(sys.argv[1:]))
