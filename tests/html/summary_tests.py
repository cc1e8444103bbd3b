"""Tests of a report's first lines, its sentences on safety, and its refused arguments and files."""

import json
import os
import re
import subprocess
import tempfile
from concurrent.futures import ThreadPoolExecutor
from pathlib import Path

from tests.support import fake_program
from tests.support import fifteen_section_line
from irvtools.rules import broken_rules
from tests.support.html_reports import TOP, page, plain, plant_of
from irvtools.model.plant import Plant
from tests.support.report_plants import plants
from tests.support.harness import test_case

AT_ONCE = 4

# arguments that the report refuses, in the directory of check_refused_words
WORDS = (
    ("x.html", "--depth", "99"), ("x.html", "--depth=0"), ("x.html", "--conflicts", "-1"),
    ("x.html", "--conflicts=200001"), ("x.html", "--columns", "loose"),
    ("x.html", "--colums", "free"), ("x.html", "y.html"), ("x.html", "check"),
    ("x.html", "verify", "verify"), ("x.html", "--depth"), ("x.html", "--verify-seconds", "soon"),
    ("x.html", "--search-seconds", "²"), ("x.html", "--depth", "2", "--depth", "2"),
    ("x.html", "--without-times", "--without-times"), ("x.html", "--without-times=yes"),
    ("--columns", "free"), ("x.html", "--run", "nothing"), ("x.html", "--run", "conf.json"),
    ("conf.json",), ("./conf.json",), ("link.html",), ("hard.html",), ("/dev/stdin",),
    ("x.cert",), ("x.html", "--cert", "x.html"), ("x.html", "--cert=conf.json"),
    ("x.html", "--cert", "hard.html"), ("hanging.html", "--cert", "y.cert"),
    ("one.run", "--run", "one.run"), ("x.html", "--cert", "one.run", "--run", "one.run"),
    ("x.html", "--no-cert", "--cert", "y.cert"), ("x.html", "--title", ""), ("x.html", "--author", "a\nb"),
    ("x.html", "--issue", "x" * 201), ("told",), ("/dev/stdout",), ("x.html", "--cert", "told"), ("no/folder.html",))

# a plant that breaks a rule, the line of check, the first sentence, and the one about safety
RESTING = [
    # C2: the path's last section has no board, and the line continues
    ("linear a . b . m1\nlinear b a c . .\nlinear c b . m2 .\nroute r1 from m1 to . path b",
     "refused C2 routes[0]", None, broken_rules.RESTS),
    # C2: only the destination; only a board inside the path
    ("linear a . b . m1\nlinear b a . m2 .\nroute r1 from m1 to m2 path b",
     "refused C2 routes[0]", None, broken_rules.IDLE_END),
    ("linear a . b . m1\nlinear b a c . m3\nlinear c b . m2 .\nroute r1 from m1 to . path b c",
     "refused C2 routes[0]", None, broken_rules.IDLE_END),
    # C2 by a board inside the path, whose last section is plain too
    ("linear a . b . m1\nlinear b a c . m3\nlinear c b d . .\nlinear d c . m2 .\n"
     "route r1 from m1 to . path b c", "refused C2 routes[0]", None, broken_rules.RESTS),
    # C1: the source is a board of the other direction; the path is reversed; both
    ("linear a . b . m1\nlinear b a c m4 m3\nlinear c b . m2 .\nroute r1 from m4 to . path c",
     "refused C1 routes[0]",
     "Route r1 is in the wrong direction: its entry board m4 is for trains that run down, but its "
     "path leads "
     "up from section b. It needs an entry board for trains that run up, for example m3 on the "
     "same section.", broken_rules.RESTS),
    ("linear a . b . m1\nlinear b a c . .\nlinear c b . m2 .\nroute r1 from m1 to . path c b",
     "refused C1 routes[0]",
     "Route r1 lists its path in the wrong direction, from its end to its beginning. Its entry "
     "board m1 is for "
     "trains that run up, so it should list b and c.", broken_rules.RESTS),
    ("linear a . b . m1\nlinear b a c . .\nlinear c b d . .\nlinear d c . m2 .\n"
     "route r1 from m1 to . path d c", "refused C1 routes[0]",
     "Route r1 is in the wrong direction: its entry board m1 is for trains that run up, but its "
     "path leads "
     "down, from section d to section c.", broken_rules.RESTS),
    ("linear a . b . m1\nlinear b a c m4 m3\nlinear c b . m2 .\nroute r1 from m4 to m3 path c",
     "refused C2 routes[0]",
     "Route r1 is in the wrong direction (see C1), which may be the cause of "
     "this.", broken_rules.IDLE_END),
    # C1 without a wrong direction
    ("linear a . b . m1\nlinear b a c . .\nlinear c b . m2 .\nroute r1 from m1 to . path c",
     "refused C1 routes[0]",
     "Route r1, which runs up, begins at m1 on section a, but its path starts with c; after a "
     "comes b.",
     broken_rules.RESTS)]


def check_resting(program, _):
    """Safety is said to depend on a rule only if it does. A wrong direction comes first."""
    for text, refusal, first, safety in RESTING:
        plant, given = plant_of(text)
        done = subprocess.run([program, "check"], input=given, capture_output=True, check=False)
        if refusal not in done.stdout.decode().splitlines():
            yield f"{text}: check says {done.stdout}"
        rule, places = broken_rules.read_line(refusal)
        found = broken_rules.sentences(plant, rule, places)
        if first and found[0] != first or len(found) < (2 if "wrong direction" in found[0] else 1):
            yield f"{text}: {found}"
        if broken_rules.safety(plant, rule, places) != safety:
            yield f"{text}: {broken_rules.safety(plant, rule, places)}"


def first_lines(text):
    """Returns a report's verdict, and the lines below it."""
    verdict = plain(text.partition('id="verdict"')[2].partition(">")[2].partition("</p>")[0])
    return [verdict, *(plain(item) for item in
                       text.partition('<ul class="sum">')[2].partition("</ul>")[0].split("</li>") if item)]


def expected_lines(given):
    """Returns named configurations with arguments, the beginnings of the first lines, and of the
    output."""
    bare = json.dumps({**json.loads(given["line-with-boards"]), "routes": []}).encode()
    idle = json.dumps(fifteen_section_line.with_fault("conflict-missing")).encode()
    return (
        ("clean", given["station"], (), ["SAFE No run of any length ends in a hazard (irv check",
                                         "Rules: clean", "verify: strict columns: safe k=1"],
         "x: SAFE. No run"),
        ("late", given["station"], ("--verify-seconds", "0"),
         ["SAFE No run of any length ends in a hazard (irv check", "Rules: clean",
          "verify: strict columns: no answer within 0 seconds (--verify-seconds). This does not "
          "change the "
          "verdict."], "x: SAFE. No run"),
        ("unsafe", given["two-sections"], ("--search-seconds", "0"),
         ["HAZARD FOUND A run from the initial state ends in a collision in section ",
          "Rules: 2 rules broken: "
          "C7", "Movements: The table has no routes, so no board opens. Only trains "
          "that enter at a border without a board can move: a and b.",
          "verify: free columns: unsafe steps=3"], "x: HAZARD FOUND. A run"),
        ("found", given["platforms-wrong-position"], ("--depth", "1"),
         ["HAZARD FOUND A run from the initial state ends in a collision in section pl1 (irv "
          "replay: hazard "
          "two pl1).", "Rules: 1 rule broken: C3",
          "Search: a run of 8 events from the initial state to a hazard. Two trains are in section "
          "pl1",
          "verify: free columns: "], "x: HAZARD FOUND. A run"),
        ("no search", given["platforms-wrong-position"], ("--depth", "1", "--search-seconds", "0"),
         ["REFUSED Broken rules: C3 (irv check with strict columns). No statement about safety.",
          "Rules: 1 rule broken: "
          "C3", "verify: free columns: not inductive"], "x: REFUSED. Broken rules: C3"),
        ("deviation", idle, (), ["SAFE WITH DEVIATIONS: proved No run of any length ends in a "
                                 "hazard. The table "
                                 "deviates from C6", "Rules: 1 rule broken: C6",
                                 "verify: free columns: safe "
                                 "k=1"], "x: SAFE WITH DEVIATIONS: proved. No run"),
        ("bare", bare, (), ["SAFE ", "Rules: clean", "Movements: The table has no routes, so no "
                                                     "board opens. A "
                            "train can enter, but it stops at the board of its border.",
                            "verify: strict columns: safe k=1"], "x: SAFE. "))


def check_first_lines(program, _):
    """The verdict is the first line of report and output. The answers are below it, with any
    timeout, which does not change the verdict."""
    for name, data, words, firsts, printed in expected_lines(plants()):
        text, said = page(program, data, "--verify-seconds", "600", *words) \
            if "--verify-seconds" not in words else page(program, data, *words)
        found = first_lines(text)
        if not all(one.startswith(first) for one, first in zip([*found, "", "", ""], firsts)):
            yield f"{name}: {found}"
        if not ("x" + said[said.index(".html") + 5:]).startswith(printed):
            yield f"{name}: {said}"
        if text.index('id="verdict"') > text.index("<h2"):
            yield f"{name}: the verdict is not first"


def check_side_by_side(_, __):
    """A hazard found by the search ends a slow verify. The page stops if replay disagrees. No
    search starts if check answers clean."""
    wrong = json.dumps(fifteen_section_line.with_fault("border-without-board")).encode()
    refused = {"says": "refused C7 sections[8]\n", "status": 5}
    with tempfile.TemporaryDirectory(prefix="irv-fake-") as room:
        slow = fake_program.program(room, {"check": refused, "verify": {"sleeps": 900}, "table": {"status": 5},
                                    "replay": {"says": "hazard wrong PC\n"}})
        text, said = page(slow, wrong, "--verify-seconds", "600", "--search-seconds", "300")
        if "because the search found a run to a hazard" not in said:
            yield f"a slow verify: {said}"
        late = [word for word in ("ended before it answered",) if word in plain(text)]
        if late:
            yield f"a slow verify: {late}"
    with tempfile.TemporaryDirectory(prefix="irv-fake-") as room:
        liar = fake_program.program(room, {"check": refused, "verify": {"sleeps": 900}, "table": {"status": 5},
                                    "replay": {"says": "no hazard\n"}})
        text, said = page(liar, wrong, "--verify-seconds", "600", "--search-seconds", "300")
        if "The page stops here" not in text or "HAZARD" in first_lines(text)[0] or "HAZARD" in said:
            yield f"a replay that says otherwise: {said}"
    with tempfile.TemporaryDirectory(prefix="irv-fake-") as room:
        spent = fake_program.program(room, {"check": {"says": "clean\n"}, "table": {"status": 5},
                                     "verify": {"says": "spent conflicts=1\n", "status": 4},
                                     "replay": {"says": "no hazard\n"}})
        text, said = page(spent, json.dumps(fifteen_section_line.right()).encode(), "--search-seconds", "60")
        if "No search: check with strict columns answered “clean”" not in text:
            yield f"a clean table: {said}"


# a duration on a page
TIME = re.compile(r"[0-9] s\b|after [0-9]+ seconds")


def check_times(program, _):
    """A report gives the times of the answers and the search. With `--without-times` neither it nor
    the output does, but the rest stays."""
    wrong = json.dumps(fifteen_section_line.with_fault("border-without-board")).encode()
    with tempfile.TemporaryDirectory(prefix="irv-fake-") as room:
        slow = fake_program.program(room, {"check": {"says": "refused C7 "
                                                             "sections[8]\n", "status": 5},
                                    "verify": {"sleeps": 900}, "table": {"status": 5},
                                    "replay": {"says": "hazard wrong PC\n"}})
        for asked, given, words, parts in (
                (program, plants()["platforms-wrong-position"], ("--verify-seconds", "600", "--depth", "1"),
                 ("(status 5", "searches in parallel")),
                (slow, wrong, ("--verify-seconds", "600", "--search-seconds", "300"),
                 ("(no status", "because the search found a run to a hazard"))):
            for option, is_told in (((), True), (("--without-times",), False)):
                text, said = page(asked, given, *words, *option)
                found = TIME.findall(plain(text) + said)
                if not (len(found) > 2 if is_told else not found):
                    yield f"{parts} {option}: {found}"
                yield from (f"{option}: {part!r} isn't "
                            f"there" for part in parts if part not in plain(text))


# lines of check about the missing rule 0, which has no sentence: whether a search begins, and the
# words about safety
UNHEARD = [("refused C0 "
            "routes[0]", True, broken_rules.UNKNOWN), ("refused C0 routes[0] "
                                                       "routes[1]", True, broken_rules.UNKNOWN),
           ("refused C0 "
            "sections[0]", True, broken_rules.UNKNOWN), ("refused N0 "
                                                         "boards[0]", False, broken_rules.NEEDED),
           ("refused R0 "
            "routes[1]", False, broken_rules.NEEDED), ("refused D0 "
                                                       "document", False, broken_rules.UNKNOWN)]


def check_unheard_rules(_, __):
    """A rule without a sentence is shown as broken, with its line, and the report continues."""
    wrong = json.dumps(fifteen_section_line.with_fault("conflict-missing")).encode()
    plant = Plant(json.loads(wrong))
    for refusal, is_suspect, safety in UNHEARD:
        rule, places = broken_rules.read_line(refusal)
        broken_rules.where(plant, rule, places)
        found = [" ".join(broken_rules.sentences(plant, rule, places)), broken_rules.rests(plant, rule, places),
                 broken_rules.safety(plant, rule, places)]
        if found != [f"This version has no sentence for the rule {rule}; docs/reference/model.md "
                     f"has the rule.",
                     is_suspect, safety]:
            yield f"{refusal}: {found}"
    with tempfile.TemporaryDirectory(prefix="irv-fake-") as room:
        lines = "\n".join(refusal for refusal, *_ in UNHEARD[:3])
        newer = fake_program.program(room, {"check": {"says": lines + "\n", "status": 5}, "table": {"status": 5},
                                     "verify": {"says": "spent conflicts=1\n", "status": 4},
                                     "replay": {"says": "no hazard\n"}})
        text, said = page(newer, wrong, "--search-seconds", "0")
        if plain(text).count("This version has no sentence for the rule C0") != 3 \
                or not all(refusal in plain(text) for refusal, *_ in UNHEARD[:3]) or "spent conflicts=1" not in said:
            yield f"a rule of the columns that is new: {said}"


def refused_by(program, room, words):
    """Returns the fault if the page accepts these arguments, otherwise `None`."""
    with open(Path(room, "conf.json"), "rb") as given, open(Path(room, "told"), "ab") as told:
        done = subprocess.run([TOP / "tools/html", "--program", program, *words], cwd=room, stdin=given,
                              stdout=told, stderr=subprocess.PIPE, check=False)
    if done.returncode != 125 or done.stderr.count(b"\n") != 1:
        return f"{words}: status {done.returncode}: {done.stderr}"
    return None


def files_in(room):
    """Returns the files of a directory, with their bytes."""
    return {file: file.read_bytes() for file in Path(room).iterdir() if file.is_file()}


def check_refused_words(program, _):
    """Arguments unknown to report and verify, and files that would overwrite one another, end with
    status 125 and change nothing."""
    with tempfile.TemporaryDirectory(prefix="irv-page-words-") as room:
        conf = Path(room, "conf.json")
        conf.write_bytes(plants()["line-with-boards"])
        Path(room, "one.run").write_text("run 1\nstart\nend\n")
        Path(room, "link.html").symlink_to(conf)
        Path(room, "hanging.html").symlink_to(Path(room, "y.cert"))
        os.link(conf, Path(room, "hard.html"))
        Path(room, "told").write_text("a report\n")
        before = files_in(room)
        with ThreadPoolExecutor(AT_ONCE) as pool:
            faults = pool.map(lambda words: refused_by(program, room, words), WORDS)
        yield from filter(None, faults)
        if files_in(room) != before:
            yield "a file was changed"


SummaryTests = test_case("SummaryTests", [check_resting, check_first_lines, check_side_by_side, check_times, check_unheard_rules,
          check_refused_words])
