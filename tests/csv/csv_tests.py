"""Tests of `irv --csv`."""

import json
import os
import subprocess
import tempfile
from pathlib import Path
from unittest import SkipTest

from tests.support import browser
from tests.csv import comparison_cases
from irvtools.csvtables import comparing
from irvtools.generators import configurations
from tests.csv import editing_cases
from tests.support import markup_check
from tests.csv import libreoffice
from tests.csv import report_table
from irvtools.csvtables import comparison_page
from tests.csv import refusal_cases
from tests.support import transcripts
from tests.csv import handwritten_tables
from tests.csv.tool_calls import call, compare_faults, refusal_faults
from tests.csv.round_trips import call_faults, joined, office_faults, plants, randoms, trip_faults
from irvtools.paths import TOP
from tests.support.harness import test_case

ALONE = 60              # random configurations that go through LibreOffice in files of their own
# a session's `./irv`, with the tested program, not the launcher's
IRV = """#!/usr/bin/env bash
case ${{1-}} in
    --csv | --html) exec "{top}/tools/${{1#--}}" --program "{program}" "${{@:2}}" ;;
    *) exec "{program}" "$@" ;;
esac
"""


# -- round trips

def check_round_trips(_, __):
    """Configurations survive CSV and back: examples, stations, 500 random ones."""
    read = {name: json.loads(given) for name, given in plants().items()}
    for name, value in {**read, **randoms()}.items():
        yield from (f"{name}: {fault}" for fault in trip_faults(value))


def check_round_trips_by_calls(program, _):
    """Calls with files give the same, and the program's answers do not change."""
    for name, given in plants().items():
        yield from call_faults(program, name, given)


def check_office(_, is_long):
    """The sheets survive LibreOffice, as text, in its own format and in Excel's, in several
    languages."""
    program = libreoffice.find()
    if program is None:
        raise SkipTest("LibreOffice is not installed (Debian's package libreoffice-calc)")
    values = list(randoms().values())
    all_ = {f"all{version}": joined(values + [json.loads(given) for given in plants().values()], version)
            for version in (1, 2)}
    alone = {str(number): value for number, value in enumerate(values[:ALONE if is_long else 0])}
    for way in libreoffice.LONG_WAYS if is_long else libreoffice.WAYS:
        yield from (f"{way}: {fault}" for fault in office_faults(program, {**all_, **alone}, way))


# -- hand-written input and output

def check_spelled(program, _):
    """Hand-written sheets, also as spreadsheets write them, give their configurations."""
    for name, sheets, value, is_own in handwritten_tables.cases():
        with tempfile.TemporaryDirectory(prefix="irv-sheet-") as room:
            Path(room, "given").mkdir()
            for file, text in sheets.items():
                Path(room, "given", file).write_bytes(text)
            back = call(program, ["--in", "given"], b"", room)
            if back.returncode or json.loads(back.stdout) != value:
                yield f"{name}: {back.stderr.decode()} {back.stdout.decode()}"
            call(program, ["--out", "new"], json.dumps(value).encode(), room)
            for file, text in sheets.items() if is_own else ():
                if Path(room, "new", file).read_bytes() != text:
                    yield f"{name}: {file} is written otherwise"
            again = call(program, ["--in", "given", "--out", "again"], b"", room)
            for file in sheets:
                if again.returncode or Path(room, "again", file).read_bytes() \
                        != Path(room, "new", file).read_bytes():
                    yield f"{name}: {file} is written otherwise again"


def check_configuration(program, _):
    """A configuration's text has one line per section and route."""
    done = call(program, ["--rename", "a=a"], refusal_cases.CONF.encode())
    if done.stdout.decode() != refusal_cases.CONF:
        yield done.stdout.decode() + done.stderr.decode()


def check_refusals(program, _):
    """Each refusal is reported, and nothing is written."""
    for case in refusal_cases.cases():
        yield from refusal_faults(program, *case)
    for words, why in refusal_cases.USAGES:
        with tempfile.TemporaryDirectory(prefix="irv-sheet-") as room:
            done = call(program, words, b"", room)
            wanted = f"irv --csv: {why}; see irv --csv --help\n"
            if (done.stderr.decode(), done.stdout, done.returncode) != (wanted, b"", 125):
                yield f"{words}: {done.stderr!r}, expected {wanted!r}"


def check_full_output(program, _):
    """A full standard output is reported."""
    with open("/dev/full", "wb") as full:
        done = subprocess.run([TOP / "tools/csv", "--named"], input=refusal_cases.CONF.encode(), stdout=full,
                              stderr=subprocess.PIPE, check=False)
    wanted = b"irv --csv: standard output: it can't be written: No space left on device\n"
    if (done.stderr, done.returncode) != (wanted, 125):
        yield f"{done.returncode} {done.stderr!r}"


def check_full_disk(program, _):
    """If the second sheet cannot be written whole, no sheet and no directory remains."""
    with tempfile.TemporaryDirectory(prefix="irv-sheet-") as room:
        done = subprocess.run(["bash", "-c", f"ulimit -f 1; exec '{TOP}/tools/csv' --out new"], cwd=room,
                              input=configurations.made("stations", "4"), capture_output=True, check=False)
        left = os.listdir(room)
    wanted = b"irv --csv: new/routes.csv: it can't be written: File too large\n"
    if (done.stderr, done.returncode, left) != (wanted, 125, []):
        yield f"{done.returncode} {done.stderr!r} {left}"


def check_help(program, _):
    """`--help` prints the usage."""
    done = subprocess.run([TOP / "tools/csv", "--help"], capture_output=True, check=False)
    if done.returncode or done.stderr or b"--with-network NEW" not in done.stdout:
        yield f"{done.returncode} {done.stdout!r}"


# -- changes and comparisons

def check_changes(program, _):
    """Renamed and dropped routes are changed in all lists."""
    for words, given, value in editing_cases.cases():
        done = call(program, words, json.dumps(given).encode(), TOP / "tests/csv")
        if done.returncode or json.loads(done.stdout) != value:
            yield f"{words}: {done.stderr.decode()} {done.stdout.decode()}"


def check_compare(program, _):
    """Each different entry of two configurations is reported, as derived by hand."""
    for name, old, new, wanted in comparison_cases.cases():
        yield from (f"{name}: {fault}" for fault in compare_faults(program, old, new, wanted))
    for name, new, wanted in comparison_cases.network_cases():
        yield from (f"{name}: {fault}" for fault in compare_faults(program, None, new, wanted))


def check_compare_chance(_, is_long):
    """Over random networks exactly the changes are reported: another order, other names, dropped
    routes and changed entries."""
    for seed in range(400 if is_long else 40):
        yield from (f"network {seed}: {fault}" for fault in comparison_cases.chance_faults(seed))


def check_large_pages(_, __):
    """A page with many differences shows the first ones, and cuts long text. Names are text."""
    names = [f"{n:0>32}" for n in range(256)]
    wide = json.loads(configurations.made("routes", "256", "listed"))
    for route, name in zip(wide["routes"], names):
        route.update(name=name, conflicts=[other for other in names if other != name])
    none = {**wide, "routes": []}
    for old, new, wanted in ((wide, none, "232 more have no picture"), (wide, none, "… (cut)"),
                             (none, wide, "232 more have no picture")):
        page = comparison_page.Picture(comparing.Comparison(old, new), "<old>", "a&b").page()
        if wanted not in page or page.count("<svg class=") != 26 or "&lt;old&gt; and a&amp;b" not in page:
            yield f"{wanted!r} isn't on the page, or it has {page.count('<svg class=')} plans"
        yield from markup_check.faults(page)


def check_page(_, __):
    """The sheet on a configuration's page equals routes.csv."""
    for name, given in {**plants(), **{name: json.dumps(one) for name, one in randoms().items()}}.items():
        yield from (f"{name}: {fault}" for fault in report_table.page_faults(given))


def check_browser(program, _):
    """The comparison page works in a browser."""
    found = browser.find()
    if found is None:
        raise SkipTest("no browser is installed (Debian's package chromium)")
    station = json.loads(plants()["station"])
    for _, old, new, _ in comparison_cases.cases():
        if old == station:
            with tempfile.TemporaryDirectory(prefix="irv-sheet-") as room:
                Path(room, "old").write_text(json.dumps(old), encoding="utf-8")
                Path(room, "new").write_text(json.dumps(new), encoding="utf-8")
                call(program, ["--compare", "old", "new", "--html", "page"], b"", room)
                yield from browser.faults(found, Path(room, "page").read_text(encoding="utf-8"))
            return


def check_session(program, _):
    """The output in docs/guides/csv.md is the actual one."""
    with tempfile.TemporaryDirectory(prefix="irv-sheet-") as room:
        irv = Path(room, "irv")
        irv.write_text(IRV.format(top=TOP, program=program), encoding="utf-8")
        irv.chmod(0o755)
        passed, faults, left_out = transcripts.run((TOP / "docs/guides/csv.md").read_text(encoding="utf-8"), room)
    yield from faults + left_out
    if not passed:
        yield "there is no session"


CsvTests = test_case("CsvTests", [check_round_trips, check_round_trips_by_calls, check_office, check_spelled, check_configuration,
          check_refusals, check_full_output, check_full_disk, check_help, check_changes, check_compare,
          check_compare_chance, check_page, check_large_pages, check_browser, check_session])
