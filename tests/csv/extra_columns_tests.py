"""Tests of comments and labels in CSV files, spreadsheet files, and the control table."""

import csv
import io
import json
import subprocess
import tempfile
from pathlib import Path
from unittest import SkipTest

from irvtools.csvtables import control_table, labels, reading
from irvtools.paths import TOP
from tests.csv import libreoffice
from tests.csv.report_table import Rows
from tests.csv.tool_calls import call
from tests.support import markup_check
from tests.support.harness import test_case

SECTIONS = '''#km,name,kind,down,up,board down,board up,stem,plus,minus,faces,label,# drawing no,board up label
"1,250",a,linear,,b,,m1,,,,,Gl. 1,'7,201A/B
'2,b,linear,a,,m2,,,,,,'1-2,"say ""x"", or
not",
'''
ROUTES = '''name,#Note,source,destination,path,overlap,points,conflicts,label
r1,=1+1,m1,,b,,,,
r2,,m2,,a,,,,"2/1"
'''
KEPT = {"#km": ["1,250", "'2"], "# drawing no": ["'7", 'say "x", or\nnot'], "#Note": ["=1+1", ""],
        "label": ["Gl. 1", "1-2"], "board up label": ["201A/B", ""]}
HOW = "; save the table of sections as sections.csv and that of routes as routes.csv"


def lay_out(room, sections=SECTIONS, routes=ROUTES):
    """Writes both CSV files into a room's directory `two`."""
    Path(room, "two").mkdir()
    Path(room, "two/sections.csv").write_text(sections, encoding="utf-8")
    Path(room, "two/routes.csv").write_text(routes, encoding="utf-8")


def columns_of(path):
    """Returns a CSV file's columns by heading, without apostrophes before labels."""
    head, *rows = csv.reader(io.StringIO(path.read_text(encoding="utf-8"), newline=""))
    return {heading: [row[place] for row in rows] for place, heading in enumerate(head)}


def kept_faults(folder, routes=2):
    """Yields comments and labels that are lost or changed."""
    for file in ("sections.csv", "routes.csv"):
        found = columns_of(Path(folder, file))
        for heading, texts in KEPT.items():
            if heading not in found and (heading != "#Note") == (file == "sections.csv"):
                yield f"{file}: the column {heading} is lost"
        for heading in set(found) & set(KEPT) if file == "sections.csv" else ["#Note"]:
            texts = [one.removeprefix("'") if "label" in heading else one for one in found[heading]]
            if texts != KEPT[heading][:routes if file == "routes.csv" else 2]:
                yield f"{file}: {heading} {texts}"


def check_kept(program, _):
    """Reading, writing, renaming, dropping and filling keep comments and labels."""
    for words in (["--in", "two", "--out", "new"], ["--in", "two", "--named", "--out", "new"],
                  ["--in", "two", "--rename", "b=c", "--drop", "r2", "--out", "new"],
                  ["--in", "two", "--fill", "conflicts,points", "--out", "new"],
                  ["--in", "two", "--fill", "conflicts,points", "--write"]):
        with tempfile.TemporaryDirectory(prefix="irv-extra-") as room:
            lay_out(room)
            done = call(program, words, b"", room)
            folder = Path(room, "new" if "new" in words else "two")
            yield from (f"{words}: {fault}" for fault in kept_faults(folder, 1 if "r2" in words else 2))
            again = call(program, ["--in", folder, "--out", "again"], b"", room)
            same = all(Path(room, "again", file).read_bytes() == Path(folder, file).read_bytes()
                       for file in (["routes.csv"] if "--write" in words else ["sections.csv", "routes.csv"]))
            if done.returncode or again.returncode or not same:
                yield f"{words}: {done.stderr} {again.stderr}, the same again: {same}"


def check_json(program, _):
    """Comments and labels do not change the configuration."""
    with tempfile.TemporaryDirectory(prefix="irv-extra-") as room:
        lay_out(room)
        done = call(program, ["--in", "two"], b"", room)
        value = json.loads(done.stdout)
        if any("#" in entry or "label" in entry for entry in [value, *value["sections"], *value["routes"]]):
            yield f"{value}"
        if labels.read(Path(room, "two")) != labels.Labels(
                {"a": "Gl. 1", "b": "1-2"}, {"m1": "201A/B"}, {"r2": "2/1"}):
            yield f"{labels.read(Path(room, 'two'))}"


def check_compared(program, _):
    """A comparison names different comments and labels if both have the column."""
    with tempfile.TemporaryDirectory(prefix="irv-extra-") as room:
        lay_out(room)
        other = Path(room, "other")
        Path(room, "two").rename(other)
        lay_out(room, SECTIONS.replace("Gl. 1", "").replace("'2,b", "3,b").replace("b,linear,a,,m2", "b,linear,a,,m5"),
                ROUTES.replace("#Note", "#Other").replace("m2", "m5").replace("2/1", "2/2"))
        done = call(program, ["--compare", "other", "two"], b"", room)
        wanted = ["section a: label Gl. 1, now none", "section b: #km '2, now 3", "board m2 is now called m5",
                  "route r2: label 2/1, now 2/2"]
        if (done.stdout.decode().splitlines(), done.returncode) != (wanted, 1):
            yield f"{done.stdout} {done.stderr}"
        Path(room, "conf").write_bytes(call(program, ["--in", "two"], b"", room).stdout)
        same = call(program, ["--compare", "conf", "two"], b"", room)
        if same.stdout != b"the same\n":
            yield f"{same.stdout} {same.stderr}"


def check_headings(program, _):
    """A duplicate comment or label is refused."""
    for old, new, column in (("#km,", "#KM,#km,", "B"), ("label,# ", "label,label,# ", "M"),
                             ("kind", "Label,kind", "M")):
        with tempfile.TemporaryDirectory(prefix="irv-extra-") as room:
            lay_out(room, SECTIONS.replace(old, new, 1))
            done = call(program, ["--in", "two"], b"", room)
            if f"two/sections.csv, line 1, column {column}: the heading " not in done.stderr.decode() \
                    or "stands here again" not in done.stderr.decode() or done.returncode != 125:
                yield f"{new}: {done.stderr}"


# -- spreadsheet files

def check_spreadsheets(program, _):
    """Spreadsheet files are refused everywhere, with what to do instead."""
    data = b"PK\x03\x04" + bytes(90)
    own, not_csv = "this is a spreadsheet's own file", "is a spreadsheet's own file, not CSV"
    for files, words, begin in [
            ({"book.ods": data}, ["--in", "book.ods"], f"book.ods: {own}, not a directory with CSV files"),
            ({"book.xlsx": data}, ["--compare", "book.xlsx", "book.xlsx"], f"book.xlsx: {own}, not CSV"),
            ({"d/book.xlsx": data}, ["--in", "d"], f"d: book.xlsx {not_csv}"),
            ({"d/sections.csv": data, "d/routes.csv": ROUTES.encode()}, ["--in", "d"],
             f"d/sections.csv: {own}, not CSV"),
            ({"old.xls": b"\xd0\xcf\x11\xe0" + bytes(90)}, ["--fill", "points", "old.xls"], f"old.xls: {own}, not CSV")]:
        with tempfile.TemporaryDirectory(prefix="irv-extra-") as room:
            for name, content in files.items():
                Path(room, name).parent.mkdir(exist_ok=True)
                Path(room, name).write_bytes(content)
            done = call(program, words, b"", room)
        if not done.stderr.decode().startswith(f"irv --csv: {begin}{HOW}") or (done.stdout, done.returncode) != (b"", 125):
            yield f"{words}: {done.stderr.decode()}"


def check_real_spreadsheets(program, _):
    """LibreOffice's own files are refused too."""
    office = libreoffice.find()
    if office is None:
        raise SkipTest("LibreOffice is not installed (Debian's package libreoffice-calc)")
    for form in ("ods", "xlsx"):
        with tempfile.TemporaryDirectory(prefix="irv-extra-") as room:
            Path(room, "sections.csv").write_text(SECTIONS, encoding="utf-8")
            folder = libreoffice.convert(office, room, [Path(room, "sections.csv")], form)
            done = call(program, ["--in", folder], b"", room)
            if b"is a spreadsheet's own file" not in done.stderr:
                yield f"{form}: {done.stderr}"


# -- the control table

STATION = TOP / "examples/station-protected.json"
R1 = ["r1", "m1", "m3", "entry", "p1", "", "", "", "", "p2-", "m2 m4", "p1 t1 p2",
      "r2: shared point; r3: flank; r4: flank; r5: opposing, flank; r6: flank; r7: opposing, flank; r8: opposing"]
BAY_ROW = ["VA2-NU2", "VA2", "NU2", "inner", "W2 W3 W6", "", "E3 E2 B2", "E3 E2", "", "W1+ W4+", "NDB",
           "W2 W3 W6 T2w T2e E3 E2 B2 W1 W4"]


def check_control_table(program, _):
    """The control tables of the protected station and the bay station equal hand-derived ones."""
    with tempfile.TemporaryDirectory(prefix="irv-extra-") as room:
        done = call(program, ["--control-table", "out", STATION], b"", room)
        head, *rows = csv.reader(io.StringIO(Path(room, "out.csv").read_text(encoding="utf-8")))
        page = Path(room, "out.html").read_text(encoding="utf-8")
        if done.returncode or done.stdout or head != list(control_table.HEADINGS) or rows[0] != R1 \
                or [row[3] for row in rows] != ["entry", "entry", "exit", "exit", "entry", "entry", "exit", "exit"]:
            yield f"{done.stderr} {rows}"
        yield from markup_check.faults(page)
        if Rows(page).rows != [head, *rows]:
            yield "the page has other rows"
        again = call(program, ["--control-table", "out", STATION], b"", room)
        if again.returncode != 125 or b"out.html: it is there already" not in again.stderr:
            yield f"{again.stderr}"
        Path(room, "out.html").unlink()
        if call(program, ["--control-table", "out", STATION], b"", room).returncode != 125 \
                or Path(room, "out.html").exists():
            yield "a page is left beside a table that was there"
    bay = json.loads((TOP / "tests/plants/bay-station.json").read_text(encoding="utf-8"))
    row = next(row for row in control_table.rows(bay) if row[0] == "VA2-NU2")
    if row[:-1] != BAY_ROW or "; VA1-NU2: shared section, shared point, overlap, flank; " not in row[-1]:
        yield f"{row}"


def check_unlisted(program, _):
    """Conflicts that no rule demands, and missing ones, are marked. A wrong name is refused."""
    value = json.loads(STATION.read_text(encoding="utf-8"))
    value["routes"][0]["conflicts"].remove("r2")
    value["routes"][1]["conflicts"].append("r3")
    rows = control_table.rows(value)
    if not rows[0][-1].startswith("r2: not listed, shared point; ") or "r3: listed only" not in rows[1][-1]:
        yield f"{rows[0]} {rows[1]}"
    value["routes"][1]["conflicts"].append("r99")
    with tempfile.TemporaryDirectory(prefix="irv-extra-") as room:
        done = call(program, ["--control-table", "out"], json.dumps(value).encode(), room)
        if b"route r2 names a section, board or route that does not exist" not in done.stderr \
                or done.returncode != 125 or list(Path(room).iterdir()):
            yield f"{done.stderr}"


def check_labels(program, _):
    """The control table's page has labels beside route names."""
    with tempfile.TemporaryDirectory(prefix="irv-extra-") as room:
        lay_out(room)
        call(program, ["--control-table", "out", "two"], b"", room)
        rows = Rows(Path(room, "out.html").read_text(encoding="utf-8")).rows
        if [row[0] for row in rows[1:]] != ["r1", "r2 2/1"]:
            yield f"{rows}"
        if reading.read_directory(Path(room, "two"))["routes"][1]["name"] != "r2":
            yield "the name is another"


def check_labels_in_pages(program, _):
    """Report and simulator show labels beside names, unless `--labels` is missing or the CSV files
    cannot be read."""
    with tempfile.TemporaryDirectory(prefix="irv-extra-") as room:
        lay_out(room)
        given = call(program, ["--in", "two"], b"", room).stdout
        for tool, words in (("html", ["--search-seconds", "0", "--no-cert"]), ("simulate", [])):
            for more, wanted, status in ((["--labels", "two"], True, 0), ([], False, 0), (["--labels", "no"], None, 125)):
                done = subprocess.run([TOP / "tools" / tool, "--program", program, "out.html", *words, *more],
                                      input=given, cwd=room, capture_output=True, check=False)
                page = Path(room, "out.html")
                text = page.read_text(encoding="utf-8") if page.exists() else None
                shown = text and all(f">{name}</text>" in text for name in ("a Gl. 1", "b 1-2", "m1 201A/B"))
                if (shown, done.returncode) != (wanted, status) or wanted and tool == "html" and "1 2/1" not in text:
                    yield f"{tool} {more}: {shown} {done}"
                page.unlink(missing_ok=True)


ExtraColumnsTests = test_case("ExtraColumnsTests", [
    check_kept, check_json, check_compared, check_headings, check_spreadsheets, check_real_spreadsheets,
    check_control_table, check_unlisted, check_labels, check_labels_in_pages])
