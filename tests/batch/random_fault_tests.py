"""Tests with random single faults in tables of real size: hazards come first, and index, CSV and
JUnit agree with the reports."""

import html
import json
import re
import subprocess
import xml.etree.ElementTree

from irvtools.calls.verdict import HAZARD_FOUND, RANKING
from tests.batch.many_configurations import with_a_fault
from tests.batch.workspace import batch_case, differs, plain
from tests.support.harness import SETTINGS
from tests.support.real_size_lines import NETWORKS, with_routes

COUNT = 30 if SETTINGS.is_long else 12
QUESTIONS = ("--ask", "check", "--ask", "html --verify-seconds 2 --search-seconds 4")
FEWEST_HAZARDS = COUNT // 3     # fewer would show little about the order
FIRST_LINE = re.compile(r'<p class="verdict \w+" id="verdict" data-word="([^"]*)"><b>\1</b>')
RUN = re.compile(r'<pre class="run">(.*?)</pre>', re.S)


def fill(room):
    """Writes tables with a random single fault each."""
    tables = {name: with_routes(str(room.true_program), network())
              for name, network in NETWORKS.items()}
    for number in range(COUNT):
        name = list(tables)[number % len(tables)]
        document = json.dumps(with_a_fault(f"{name} {number}", tables[name]))
        (room.directory / f"{name} {number}.json").write_text(document, encoding="ascii")


def first_words(room):
    """Returns the first word of each configuration's report by name, and the report."""
    report, found = room.report(), {}
    for each in report["configurations"]:
        key = next(one["job"] for one in each["questions"] if one["question"].startswith("html"))
        file = report["jobs"][key]["answer"]["files"]["html"]["name"]
        shown = (room.out / "results/html" / key / file).read_text(encoding="utf-8")
        found[each["name"]] = html.unescape(FIRST_LINE.search(shown)[1]), shown
    return found


def has_hazard(room, name, shown):
    """Returns whether `irv replay` answers a hazard to a report's run."""
    path = room.room / "printed.run"
    for run in RUN.findall(shown):
        path.write_text(html.unescape(run), encoding="ascii")
        with open(room.directory / name, "rb") as given:
            done = subprocess.run([
                str(room.true_program), "replay", "--columns", "free", "--run",
                str(path)
            ], stdin=given, stdout=subprocess.PIPE, check=False)
        if done.returncode == 0 and done.stdout.startswith(b"hazard "):
            return True
    return False


def counts(words):
    """Returns how often each word occurs, the worst first."""
    return [(word, words.count(word)) for word in RANKING if word in words]


def check_random_faults(room):
    """With random single faults each hazard comes first in the index. Index, CSV and JUnit
    count the reports' first words."""
    fill(room)
    done = room.call(*QUESTIONS)
    yield from differs("status", done.returncode, 1)
    reports, rows = first_words(room), room.index_rows()
    yield from differs("configurations", (len(reports), len(rows)), (COUNT, COUNT))
    words = [word for word, _, _ in rows]
    yield from differs("the order of the rows", words, sorted(words, key=RANKING.index))
    yield from differs("the rows", {name: word for word, _, name in rows},
                       {name: word for name, (word, _) in reports.items()})
    expected = counts([word for word, _ in reports.values()])
    line = ", ".join(f"{count} {word}" for word, count in expected)
    yield from differs("the index counts", f": {line}." in plain(
        (room.out / "index.html").read_text()), True)
    yield from differs("the call counts", f"({line})" in done.stdout, True)
    yield from files_faults(room, reports, expected)
    hazards = [name for name, (word, _) in reports.items() if word == HAZARD_FOUND]
    if len(hazards) < FEWEST_HAZARDS:
        yield f"only {len(hazards)} hazards were found"
    yield from (f"{name}: irv replay answers no hazard to its report's run" for name in hazards
                if not has_hazard(room, name, reports[name][1]))
    yield from differs("links to hazards",
                       sum("Show the hazard in the HTML report" in cell for _, cell, _ in rows),
                       len(hazards))
    yield from differs("verified", room.verify()[0], 0)


def files_faults(room, reports, expected):
    """Yields the differences of CSV and JUnit from the reports."""
    lines = [line for line in room.table() if line["question"].startswith("html")]
    yield from differs("CSV", {line["configuration"]: line["verdict"] for line in lines},
                       {name: word for name, (word, _) in reports.items()})
    yield from differs("CSV counts", counts([line["verdict"] for line in lines]), expected)
    suite = xml.etree.ElementTree.parse(room.out / "report.xml").getroot()[0]
    failures = [
        case.find("failure") for case in suite.iter("testcase")
        if case.get("name").startswith("html")
    ]
    yield from differs("JUnit counts",
                       counts([each.get("type") for each in failures if each is not None]),
                       [pair for pair in expected if pair[0] != "SAFE"])


RandomFaultTests = batch_case("RandomFaultTests", (check_random_faults,))
