"""Tests of whole reports: form, options and files, faulty programs, and the look in a browser and
on paper."""

import json
import re
import subprocess
import tempfile
import time
from pathlib import Path
from unittest import SkipTest

from tests.support import browser
from irvtools.generators import configurations
from tests.support import fake_program
from irvtools.calls import provenance
from tests.support import largest_configuration
from tests.support import fifteen_section_line
from tests.support import markup_check
from irvtools.calls.program import Program
from tests.support.html_reports import TOP, page
from tests.support.report_plants import plants
from irvtools.html.run_frames import MOST_PICTURED
from tests.support.harness import LongTest, test_case

TAKES_LONG = True

MOST_SHEETS = 6         # of paper for a station
SHEET = '<div class="wide"><h2 id="table">'
# arguments of the page, and those of verify that result; the last is the certificate's file
WORDS = (
    (("a.html",), "--columns strict --cert a.cert"),
    (("b.html", "--cert", "c.cert"), "--columns strict --cert c.cert"),
    (("d.html", "--cert=e.cert", "--columns=free", "--depth", "2"), "--columns free --depth 2 "
                                                                    "--cert e.cert"),
    (("--columns", "free", "f.html"), "--columns free --cert f.cert"))


def check_premises(_, __):
    """The assumptions are found by their identifiers."""
    document = ("# A page\n\n### AS-01: It\n\n- Statement: It `is` **so**.\n- Ensured by: me\n\n## "
                "What else\n\n"
                "### AS-02: This\n\n[This](there.md) too,\nand that.\n\nMore.\n\n### SRAC-01: "
                "That\n\nNothing.\n")
    found = provenance.premises_in(document)
    if found != [("AS-01", "It is so."), ("AS-02", "This too, and that.")]:
        yield f"{found}"
    if provenance.QUALIFICATION.exists() and len(provenance.premises()) < 9:
        yield f"docs/assurance/qualification.md has only {provenance.premises()}"


def check_pages(program, is_long):
    """Pages are well-formed, open nothing from elsewhere, and show irv's answers."""
    chosen = ["two-sections", "line-with-boards", "platforms-wrong-position", "facing-point-wrong"]
    found = plants()
    for name in (found if is_long else chosen):
        text, said = page(program, found[name], "--verify-seconds", "20" if is_long else "5", "--search-seconds", "4")
        yield from (f"{name}: {fault}" for fault in markup_check.faults(text))
        check = Program(program, found[name]).ask(["check"], 60).line
        for words in (check, "Track plan", "For the safety case", "is not proved"):
            if words not in text:
                yield f"{name}: {words!r} isn't on the page; {said}"
        if "The page stops here" in text:
            yield f"{name}: the page stops"


def check_unreadable(program, _):
    """A configuration that is not JSON, or has another schema, also makes a page. Names are text."""
    name = '<img src=x onerror=alert(1)>&"'
    wrong = fifteen_section_line.right()
    wrong["sections"][0]["name"] = name
    for given, words in ((b'{"version": 1,\n "sections": '
                          b'[}', "Line 2, column 15"), (b"", "refused F2"),
                         (b"\xff", "UTF-8"), (b"<script>alert(1)</script>", "Line 1, column 1"),
                         (json.dumps(wrong).encode(), "&lt;img src=x"), (b"[]", "an array"),
                         (b'{"version": 1, "sections": [{"\\ud800": 1}], "routes": '
                          b'[]}', "refused F2"),
                         (b'{"version": 3, "sections": [], "routes": []}', "must be 1 or 2")):
        text, said = page(program, given)
        yield from (f"{given[:40]}: {fault}" for fault in markup_check.faults(text))
        if words not in text or "refused F" not in text:
            yield f"{given[:40]}: {words!r} isn't on the page; {said}"


def check_words(program, _):
    """The page passes verify's arguments on and shows the files' checksums. Wrong arguments are
    refused."""
    given = plants()["line-with-boards"]
    with tempfile.TemporaryDirectory(prefix="irv-page-test-") as room:
        def called(*words):
            return subprocess.run([TOP / "tools/html", "--program", program, *words], input=given, cwd=room,
                                  capture_output=True, check=False)
        for words in ((), ("--verify-seconds",), ("a.html", "--verify-seconds", "x"), ("a.html", "--columns", "loose"),
                      ("a.html", "b.html"), ("no/folder.html",)):
            if called(*words).returncode != 125 or list(Path(room).iterdir()):
                yield f"{words}: another status than 125, or something was written"
        for words, asked in WORDS:
            done = called(*words)
            out = Path(room, next(word for word in words if word.endswith(".html")))
            text = out.read_text(encoding="utf-8") if not done.returncode else ""
            for wanted in (f"irv verify {asked}</code> <b><code>safe k=1<",
                           provenance.sum_of_file(Path(room, asked.split(" ")[-1])),
                           provenance.sum_of(given), provenance.sum_of_file(program)):
                if wanted not in text:
                    yield f"{words}: {wanted} isn't on the page"


def check_fakes(_, __):
    """The page says in plain words if a program is slow, silent or wrong."""
    given = json.dumps(fifteen_section_line.right()).encode()
    clean = {"says": "clean\n"}
    unsafe = {"says": "unsafe steps=1 hazard=two U1\nrun 1\nstart\nenter U1\nend\n", "status": 1}
    quiet = {"says": "no hazard\n", "status": 6}
    with tempfile.TemporaryDirectory(prefix="irv-fake-") as room:
        for answers, wanted in (
                ({"check": clean, "verify": {"sleeps": 5}, "replay": quiet}, "verify was ended "
                                                                             "before it answered"),
                ({"check": clean, "verify": {"status": 10}, "replay": quiet}, "verify could not "
                                                                              "answer"),
                ({"check": {"status": 139}}, "the page ends here"),
                ({"check": clean, "verify": unsafe, "replay": {"says": "hazard two U1\n"}},
                 "The page stops here")):
            program = fake_program.program(room, answers)
            text, said = page(program, given, "--verify-seconds", "1", "--search-seconds", "1")
            if wanted not in text:
                yield f"{answers}: {wanted!r} isn't on the page; {said}"
            yield from markup_check.faults(text)
    text, said = page(Path(room, "nothing"), given)
    if text or "does not exist; build it" not in said:
        yield f"without a program: {said}"


def check_browser(program, is_long):
    """In a browser the console is empty, and names lie in their frames and apart."""
    found = browser.find()
    if found is None:
        raise SkipTest("no browser is installed (Debian's package chromium)")
    chosen = plants() if is_long else {"facing-point-wrong": plants()["facing-point-wrong"]}
    if is_long:
        chosen["stations 16"] = configurations.made("stations", "16")
    for name, given in chosen.items():
        text, _ = page(program, given, "--verify-seconds", "5", "--search-seconds", "4")
        yield from (f"{name}: {fault}" for fault in browser.faults(found, text))
    yield from paper_faults(found, program)


def paper_faults(found, program):
    """Yields the faults of a station's page on paper. Plan, rules, verdict, run to a hazard and
    safety case take at most six pages. The table of routes has its own landscape pages. Runs that
    use a route are not printed."""
    text, _ = page(program, plants()["facing-point-wrong"], "--verify-seconds", "5")
    begin, _, rest = text.partition('<h2 id="routes">')
    sheet, _, end = rest.partition(SHEET)[2].partition('<h2 id="safety-case">')
    end = '<h2 id="safety-case">' + end
    pages = browser.sheets(found, begin + end)
    if not 2 <= len(pages) <= MOST_SHEETS or any(width > height for width, height in pages):
        yield f"on paper: {pages}"
    wide = [width > height for width, height in browser.sheets(found, begin + SHEET + sheet + end)]
    if sum(wide) != 1 or len(wide) < len(pages) + 1:
        yield f"on paper with the table of routes: {wide}"
    pictures = len(re.findall('<div id="[a-z0-9-]+" class="frame">', text))
    if pictures != MOST_PICTURED + 1:
        yield f"on paper: {pictures} pictures of a run"
    if "<details open" in text or "details-content" in text:
        yield "on paper: what is closed is printed too"


def check_largest(program, _):
    """The page of 4 MB and 256 sections takes at most a minute and 30 MB."""
    begin = time.monotonic()
    text, said = page(program, largest_configuration.given())
    seconds = time.monotonic() - begin
    print(f"the largest page: {seconds:.0f} s, {len(text) / 1e6:.1f} MB")
    if seconds > 60 or len(text) > 30e6 or "For the safety case" not in text:
        yield f"{seconds:.0f} s, {len(text)} bytes; {said}"
    yield from markup_check.faults(text)


WholeReportTests = test_case("WholeReportTests", [check_premises, check_pages, check_words, check_unreadable, check_fakes, check_browser])
LongTests = test_case("LongTests", [check_largest], LongTest)
