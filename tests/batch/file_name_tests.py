"""Tests of unusual file names: answers, displayed names and found changes."""

import html
import random
import xml.etree.ElementTree

from irvtools.batch.planning import title_of
from irvtools.batch.report_verification import texts_of
from irvtools.html.options import MOST_CHARACTERS
from tests.batch.workspace import batch_case, differs, without_progress
from tests.support.harness import Test

# names that a shell, a page or a table could misread
NAMES = {"platforms.json": b"a 'quoted\" $(touch broken) name.json",
         "platforms-wrong-position.json": b"-dash<b>&amp;{key}.json",
         "two-sections.json": b"=1+1.json", "station.json": b"below/line\nend \xff.json"}
SHOWN = {"platforms.json": "a 'quoted\" $(touch broken) name.json",
         "platforms-wrong-position.json": "-dash<b>&amp;{key}.json",
         "two-sections.json": "=1+1.json", "station.json": "below/line\\x0aend \\xff.json"}
QUESTIONS = """configuration,ask,words
=1+1.json,verify,--columns free
*,check,
"-dash<b>&amp;{key}.json",verify,
"-dash<b>&amp;{key}.json",audit,
"a 'quoted"" $(touch broken) name.json",verify,
"a 'quoted"" $(touch broken) name.json",audit,
"a 'quoted"" $(touch broken) name.json",verify_with,"--solver 'sh -c "": >{proof}; exit 20"" {cnf}'"
*,drive,--run 'a scene'
*,html,--verify-seconds 0 --search-seconds 0
"""
SCENARIO = "drive 1\nenter line\nend\n"
SUMS = 100              # random sums of seconds, each in two orders


def fill(room):
    """Adds four configurations with unusual names, and questions about each."""
    for example, name in NAMES.items():
        room.add(example, name)
    (room.directory / "a scene").write_text(SCENARIO, encoding="ascii")
    (room.directory / "questions.csv").write_text(QUESTIONS, encoding="utf-8")


def check_names(room):
    """Each answer is as documented, and the index and JUnit show each name. Only changes make later
    calls do jobs."""
    fill(room)
    first = room.call()
    yield from differs("status", (first.returncode, without_progress(first.stderr)), (1, ""))
    yield from names_faults(room)
    again = room.call()
    yield from differs(
        "again", again.stdout,
        first.stdout.replace(f"{jobs_of(room)} jobs were done, 0 were known",
                             f"0 jobs were done, {jobs_of(room)} were known"))
    status, lines = room.verify()
    yield from differs("verified", (status, lines[:-1]), (0, []))
    yield from order_faults(room)
    known = jobs_of(room)
    room.add("line-with-boards.json", NAMES["station.json"])
    third = room.call()
    yield from differs("changed",
                       third.stdout.split("; ")[1], f"3 jobs were done, {known - 3} were known")
    yield from changes(room)


def jobs_of(room):
    """Returns how many jobs a report has."""
    return len(room.report()["jobs"])


def expected_answers():
    """Returns each answer's expected outcome and line, except for verify_with and html."""
    name = dict(SHOWN)
    name["two-sections.json"] = "\\x3d1+1.json"         # escaped: no name begins a formula in a table
    name["platforms-wrong-position.json"] = "\\x2ddash<b>&amp;{key}.json"
    return {
        (name["platforms.json"], "check"): ("good", "clean"),
        (name["platforms.json"], "verify"): ("good", "safe k=1"),
        (name["platforms.json"], "audit"): ("good", "accepted k=1"),
        (name["platforms-wrong-position.json"], "check"): ("REFUSED", "refused C3 routes[1]"),
        (name["platforms-wrong-position.json"], "verify"): ("REFUSED", "refused C3 routes[1]"),
        (name["platforms-wrong-position.json"], "audit"):
            ("left out", "no certificate of safety: refused C3 routes[1]"),
        (name["platforms-wrong-position.json"], "drive"): ("REFUSED", "refused C3 routes[1]"),
        (name["two-sections.json"], "check"): ("REFUSED", "refused C7 sections[0]"),
        (name["two-sections.json"], "verify"): ("HAZARD FOUND", "unsafe steps=3 hazard=two a"),
        (name["two-sections.json"], "drive"): ("REFUSED", "refused C7 sections[0]"),
        (name["station.json"], "check"): ("good", "clean"),
        # no section is called line: the scenario's line 2 is bad
        (name["station.json"], "drive"): ("NOT SHOWN", "rejected line 2"),
        # all commands were given, but without a route the train has not left
        (name["platforms.json"], "drive"): ("NOT SHOWN", "stuck at 2 steps=1"),
    }


def names_faults(room):
    """Yields the faults in answers about unusual names."""
    found, expected = room.answers(), expected_answers()
    solved = found.pop((SHOWN["platforms.json"], "verify_with"), ("", ""))
    reports = {key: found.pop(key) for key in list(found) if key[1] == "html"}
    yield from differs("answers", found, expected)
    # within 0 seconds verify may miss the hazard of two-sections.json
    outcomes = sorted(outcome for outcome, _ in reports.values())
    if outcomes not in (["REFUSED", "REFUSED", "good", "good"],
                        ["HAZARD FOUND", "REFUSED", "good", "good"]):
        yield f"HTML reports: {outcomes}"
    yield from differs("titles", sorted(titles(room)), sorted(SHOWN.values()))
    # an empty proof refutes only queries that propagation refutes; step 1 needs more
    if solved[0] != "NOT SHOWN" or not solved[1].endswith("step 1"):
        yield f"a solver that wrote nothing: {solved}"
    yield from differs("touched", list(room.room.rglob("broken")), [])
    rows = [(word, name) for word, _, name in room.index_rows()]
    yield from differs("the rows of the index, the worst first", rows,
                       [("HAZARD FOUND", "=1+1.json"), ("REFUSED", "-dash<b>&amp;{key}.json"),
                        ("SAFE", "a 'quoted\" $(touch broken) name.json"),
                        ("SAFE", "below/line\\x0aend \\xff.json")])
    suite = xml.etree.ElementTree.parse(room.out / "report.xml").getroot()[0]
    yield from differs("JUnit",
                       [suite.get(key) for key in ("tests", "failures", "errors", "skipped")],
                       ["18", "11", "0", "1"])
    yield from differs("JUnit's names", {case.get("classname") for case in suite.iter("testcase")},
                       set(SHOWN.values()))


def titles(room):
    """Yields the title of each HTML report."""
    for path in (room.out / "results/html").glob("*/*.html"):
        text = path.read_text(encoding="utf-8")
        yield html.unescape(text.partition("<h1>")[2].partition("</h1>")[0])


def order_faults(room):
    """Yields a fault if the report's texts depend on the order of a job's needs, which changes on
    re-reading. Some sums of seconds are halfway between two displayed values."""
    report, turned = room.report(), room.report()
    for each in turned["jobs"].values():
        each["job"]["needs"] = dict(reversed(each["job"]["needs"].items()))
    chance = random.Random(1)
    for _ in range(SUMS):
        for key in report["jobs"]:
            seconds = chance.randrange(60) / 20
            for value in (report, turned):
                value["jobs"][key]["answer"]["seconds"] = seconds
        if texts_of(report) != texts_of(turned):
            yield "the texts of a report depend on the order in which a job's needs are listed"
            return


def shortened(data):
    """Leaves out the last two bytes."""
    return data[:-2]


def other_steps(data):
    """Changes the number of steps of a run."""
    return data.replace(b"unsafe steps=3", b"unsafe steps=2")


def other_verdict(data):
    """Changes the verdict of each refused configuration."""
    configurations, between, jobs = data.partition(b'"jobs":{')
    return configurations.replace(b'"word":"REFUSED"', b'"word":"SAFE"') + between + jobs


def other_word(data):
    """Changes the verdict of each job that shows nothing."""
    configurations, between, jobs = data.partition(b'"jobs":{')
    return configurations + between + jobs.replace(b'"word":"NOT SHOWN"', b'"word":"REFUSED"')


def no_word(data):
    """Replaces a verdict by an unknown word."""
    return data.replace(b'"word":"REFUSED"', b'"word":"GREEN"')


def called_proved(data):
    """Claims that the program is proved."""
    return data.replace(b'"is_proved":false', b'"is_proved":true')


def changes(room):
    """`--verify-report` finds each later change."""
    configuration = next(each["checksum"] for each in room.report()["configurations"]
                         if each["name"] == "=1+1.json")
    report, certificate = room.out / "report.json", room.file("verify", "certificate", "safe k=1")
    run = room.file("verify", "report", "unsafe steps=3 hazard=two a")
    for what, path, change, expected in (
            ("a certificate", certificate, shortened, "the certificate was changed"),
            ("a run", run, other_steps, "the report was changed"),
            ("a page", room.out / "index.html", other_steps, "index.html: the file was changed"),
            ("a configuration", room.out / "given" / configuration, shortened,
             "the configuration was changed"),
            ("an answer", report, other_steps, "the answer was changed"),
            ("a verdict", report, other_verdict, "the verdict SAFE is not that of the answers"),
            ("a job's verdict", report, other_word, "its verdict is not that of its answer"),
            ("a word", report, no_word, "report.json: it is not as it should be"),
            ("the proof", report, called_proved, "the program: the report says that it is proved")):
        before = path.read_bytes()
        if change(before) == before:
            yield f"{what} is not changed"
        path.write_bytes(change(before))
        status, lines = room.verify()
        path.write_bytes(before)
        if status != 1 or not any(expected in line for line in lines[:-1]):
            yield f"{what} was changed: {status} {lines}"


class TitleTests(Test):
    """Tests of HTML report titles."""

    def test_titles(self):
        """A title is printable and not too long. A suitable name is its own title."""
        names = {"a.json": "a.json", "x" * 300 + ".json": "…" + "x" * (MOST_CHARACTERS - 6) + ".json",
                 "a\u00a0b.json": "a\\u00a0b.json", "a\nb.json": "a\\x0ab.json"}
        self.see(fault for name, title in names.items()
                 for fault in differs(name, title_of(name), title))


FileNameTests = batch_case("FileNameTests", (check_names,))
