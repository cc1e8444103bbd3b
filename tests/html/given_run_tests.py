"""Tests of the page's words about given runs and scenarios, derived by hand over
examples/platforms.json, examples/station.json and two-sections.json."""

import json
import tempfile
from pathlib import Path

from tests.support import markup_check
from irvtools.calls.program import Program
from irvtools.html.run_file import Given, bad_line
from tests.support.html_reports import page, shown_by
from irvtools.model.plant import Plant
from tests.support.report_plants import plants
from irvtools.html.options import Refused
from tests.support.harness import test_case

RUNS = [
    # plant, run events, expected words on the page, expected output
    ("two-sections", "enter a, enter b, head a",
     ["Run ", "hazard two b", "3. head a", "Two trains are in section b: a collision."],
     ".run: hazard two b"),
    ("platforms", "mark in1, allocate in1, mark in2, allocate in2, lock in2",
     ["Event 4, allocate in2, is not enabled: its conflict in1 is allocating; the lock of section "
      "w1 is "
      "locked, not free: route in1 has it locked.", "3. mark in2"], ".run: not a run at 4"),
    ("two-sections", "enter a, enter b, head a, tail a",
     ["Event 4, tail a, is not enabled: the run has already ended in a hazard. Two trains are in "
      "section b: "
      "a collision."], ".run: not a run at 4"),
    ("platforms", "mark in1, cancel in1",
     ["2. cancel in1", "Route in1 is cancelled."], ".run: no hazard")]

SCENES = [
    ("station", "enter b1, mark r1, mark r3",
     ["3 of 3 commands acted", "Command 2 of 3: mark r1", "driven steps="], ".run: driven"),
    ("station", "enter b1, enter b2, mark r1, mark r5",
     ["All commands acted, but the scenario does not end",
      "The train in t1, which runs up, waits at m3, which is closed: no route from there is "
      "requested (r3).",
      "The train in b2, which runs down, waits at m2, which is closed: r5 is marked.",
      "r5 waits for t1, which a train occupies."], ".run: stuck at 5 steps=14"),
    ("station", "mark r1, mark r1, enter b1",
     ["1 of 3 commands "
      "acted", "The scenario is stuck at command 2, mark r1, which is not enabled: route "
      "r1 is locked, not free.", "r1 is locked, with board m1 open. It waits for a train there."],
     ".run: stuck at 2 steps=3"),
    ("three-sections", "enter c, enter a, mark r1",
     ["3 of 3 commands acted; 6 events", "hazard two c steps=9",
      "Two trains are in section c: a collision."], ".run: hazard two c steps=9")]

# over platforms: a text, its first bad line, and the words about it
BAD = [
    ("run 1\nstart\nmark r9\nend\n", 3, "Line 3 is “mark r9”: route “r9” does not exist."),
    ("run 1\nstart\nthrow line\nend\n", 3,
     "Line 3 is “throw line”: section line has no points, so throw does not apply."),
    ("run 1\nstart\nenter nowhere\nend\n", 3, "Line 3 is “enter nowhere”: section “nowhere” does "
     "not exist."),
    ("run 1\nstart\ngo line\nend\n", 3, "Line 3 is “go line”: “go” is not one of mark, allocate, "
     "lock, sense, release, finish, cancel, throw, settle, enter, head, tail, leave and “end”."),
    ("run 1\nstart\nmark in1\n", 4, "Line 4 is missing: the last line must be “end”."),
    ("run 1\nstart\nmark in1\nend", 4, "Line 4 is “end”, without a line feed."),
    ("run 1\nstart\nend\nmark in1\n", 4, "Line 4 is “mark in1”, but nothing may follow “end”."),
    ("run 1\nbegin\nend\n", 2, "Line 2 is “begin”, but must be “start” or “state”."),
    ("run 1\nstate\nroute in2 free 0 0\nevents\nend\n", 3,
     "Line 3 is “route in2 free 0 0”; this must be the line of route in1, for example “route in1 "
     "free 0 0”."),
    ("drive 1\nlock in1\nend\n", 2,
     "Line 2 is “lock in1”: “lock” is not one of mark, enter, cancel and “end”."),
    ("drive 1\nmark <b>\nend\n", 2, "Line 2 is “mark <b>”: route “<b>” does not exist.")]


def text_of(head, words):
    """Returns the text of a run or a scenario."""
    return "".join(f"{line}\n" for line in (*head, *words.split(", "), "end"))


def check_given_runs(program, _):
    """A given run is drawn up to its hazard or its first disabled event, with the reason."""
    for name, words, wanted, line in RUNS:
        said, printed = shown_by(program, plants()[name], text_of(("run 1", "start"), words))
        yield from (f"{words}: {one!r} isn't on the page" for one in wanted if one not in said)
        if line not in printed or "The page stops here" in said:
            yield f"{words}: {printed}"


def check_given_scenes(program, _):
    """A scenario shows when each command acts, and what waits if it is stuck."""
    for name, words, wanted, line in SCENES:
        said, printed = shown_by(program, plants()[name], text_of(("drive 1",), words))
        yield from (f"{words}: {one!r} isn't on the page" for one in wanted if one not in said)
        if line not in printed or "The page stops here" in said:
            yield f"{words}: {printed}"


def check_bad_lines(program, _):
    """The page names a text's bad line and the reason. Replay and drive name the same line."""
    given = plants()["platforms"]
    plant = Plant(json.loads(given))
    with tempfile.TemporaryDirectory(prefix="irv-page-bad-") as room:
        file = Path(room, "bad")
        for text, number, wanted in BAD:
            file.write_text(text)
            one = Given(str(file))
            said = one.ask(Program(program, given), "free", 60).line
            if said != f"rejected line {number}":
                yield f"{text!r}: irv says {said}"
            if bad_line(one, plant, number) != wanted:
                yield f"{text!r}: {bad_line(one, plant, number)!r}"
    said, _ = shown_by(program, given, BAD[0][0].replace("mark r9", "mark in1\nmark r9"))
    for wanted in ("Line 4 is “mark r9”", "1. mark in1", "The events before that line are drawn."):
        if wanted not in said:
            yield f"{wanted!r} isn't on the page"


def check_given_files(program, _):
    """A file that is neither a run nor a scenario is refused. Names are text. An invalid plant has
    no run."""
    with tempfile.TemporaryDirectory(prefix="irv-page-files-") as room:
        file = Path(room, "<i>&.run")
        for data in (b"", b"run 2\nstart\nend\n", b"\xff\xfe", b"run 1\r\nstart\r\nend\r\n"):
            file.write_bytes(data)
            try:
                Given(str(file))
                yield f"{data}: taken"
            except Refused:
                pass
        made, printed = page(program, plants()["platforms"], "--run", str(Path(room, "nothing")))
        if made or "cannot read --run" not in printed:
            yield f"a file that isn't there: {printed}"
        file.write_bytes(b"run 1\nstart\nenter line\nend\n")
        made, _ = page(program, plants()["platforms"], "--run", str(file), "--search-seconds", "0")
        yield from markup_check.faults(made)
        if "&lt;i&gt;&amp;.run" not in made:
            yield "the file's name isn't on the page as text"
        file.write_text("drive 1\n" + "enter line\n" * 800 + "end\n")
        made, _ = page(program, plants()["platforms"], "--run", str(file), "--search-seconds", "0")
        if "refused F1 extra" not in made or "longer than irv reads" not in made:
            yield "a scenario that is too long: no word of it"
        made, printed = page(program, b"{}", "--run", str(file))
        if "a configuration that is not a plant has no runs" not in made:
            yield f"without a plant: {printed}"


def check_long_run(program, _):
    """The page draws only the last events of an overlong run, and says so."""
    words = ", ".join(["mark in1, cancel in1"] * 300 + ["enter line"])
    said, printed = shown_by(program, plants()["platforms"], text_of(("run 1", "start"), words))
    for wanted in ("Left out: the frames of the first 201 events.", "400. enter line"):
        if wanted not in said:
            yield f"{wanted!r} isn't on the page; {printed}"


GivenRunTests = test_case("GivenRunTests", [check_given_runs, check_given_scenes, check_bad_lines, check_given_files, check_long_run])
