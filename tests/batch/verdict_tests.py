"""Tests of configurations' verdicts, the order of rows, and the agreement of index, CSV and JUnit."""

import csv
import io
import itertools
import re
import xml.etree.ElementTree

from irvtools.batch import verdicts
from irvtools.batch.batch_report import rows_of
from irvtools.batch.report_files import junit, table
from irvtools.batch.report_page import page
from irvtools.calls import verdict as rules
from tests.batch.made_reports import made_report
from tests.batch.workspace import differs, plain
from tests.calls.verdict_tests import ROWS
from tests.support.harness import Test, test_case

FOUND = f"{rules.HAZARD_FOUND}. A run from the initial state ends in a collision in section a."
CLEAN, SAFE = ("check", "clean"), ("verify", "safe k=1")
SPENT = ("verify", "spent conflicts=9", 4, "free", False)
DEVIATES = ("check", "refused C4 routes[0]", 5, "strict", False, "refused C5 routes[1] routes[2]\n")
OTHER = ("check", "refused C4 routes[0]", 5, "strict", False, "refused C3 routes[1]\n")
UNSAFE = ("verify", "unsafe steps=3 hazard=two a", 1, "free", False)
# each configuration's answers, its word and whether every answer is good, the worst first
CONFIGURATIONS = (
    ("both", (CLEAN, ("html", FOUND, 0, "strict", False)), rules.HAZARD_FOUND, False),
    ("found", (OTHER, ("html", FOUND, 0, "strict", False)), rules.HAZARD_FOUND, False),
    ("unsafe", (OTHER, UNSAFE), rules.HAZARD_FOUND, False),
    ("driven", (("drive", "hazard two a steps=4", 1, "strict", False),), rules.HAZARD_FOUND,
     False),
    ("rejected", (CLEAN, SAFE, ("audit", "rejected line 1", 6, "strict", False)), rules.NOT_SHOWN,
     False),
    ("refused, no answer", (OTHER, ("verify", None)), rules.REFUSED, False),
    ("refused", (OTHER, SPENT), rules.REFUSED, False),
    ("no answer", (("verify", None), ("check", "clean", 0, "free")), rules.NOT_SHOWN, False),
    ("spent", (SPENT,), rules.NOT_SHOWN, False),
    ("no report", (("html", f"{rules.NOT_SHOWN}. No statement about safety.", 0, "free", False),),
     rules.NOT_SHOWN, False),
    ("free", (("check", "clean", 0, "free"),), rules.NOT_SHOWN, True),
    ("nothing", (), rules.NOT_SHOWN, False),
    ("deviates", (DEVIATES, ("html", f"{rules.SAFE_WITH_DEVIATIONS}. No run.", 0, "strict", False)),
     rules.SAFE_WITH_DEVIATIONS, False),
    ("late", (CLEAN, ("verify", None)), rules.SAFE, False),
    ("refuted", (OTHER, ("verify_with", "safe k=1", None, "free")), rules.SAFE, False),
    ("safe", (CLEAN, SAFE, ("audit", "accepted k=1")), rules.SAFE, True),
    ("left out", (SAFE, ("audit", "no certificate of safety: spent conflicts=9", None, "strict",
                         None)), rules.SAFE, True),
)


def the_report(is_proved=True):
    """Returns the value of the report about CONFIGURATIONS in reverse order."""
    return made_report({name: answers for name, answers, *_ in reversed(CONFIGURATIONS)}, is_proved)


def check_words(_, __):
    """Each configuration has its word, and is good only if every answer is."""
    rows = {row.name: row for row in rows_of(the_report())}
    for name, _answers, word, is_good in CONFIGURATIONS:
        yield from differs(name, (rows[name].verdict, rows[name].is_good), (word, is_good))


def check_order(_, __):
    """Hazards come first, contradictions before other ones. Missing proofs come before safe ones.
    Among equal words, missing answers come first."""
    words = [row.verdict for row in rows_of(the_report())]
    yield from differs("words", words, [word for _, _, word, _ in CONFIGURATIONS])
    names = [row.name for row in rows_of(the_report())]
    first = [
        name for name in names
        if name in ("both", "rejected", "refused, no answer", "refused", "late", "safe")
    ]
    yield from differs("first", first,
                       ["both", "rejected", "refused, no answer", "refused", "late", "safe"])


def check_contradictions(_, __):
    """An answer that says safe beside a hazard, or a rejected certificate, is a contradiction and
    never good."""
    rows = {row.name: row for row in rows_of(the_report())}
    wrong = {name for name, row in rows.items() if row.is_contradiction}
    yield from differs("contradictions", wrong, {"both", "rejected"})
    for name in wrong:
        if rows[name].tone != "bad" or "Contradiction: " not in rows[name].sentence:
            yield f"{name}: {rows[name].tone}, {rows[name].sentence}"


def check_proof(_, __):
    """Without the proved program no row is green, and the page says that nothing is proved."""
    for is_proved, tones in ((True, {"bad", "warn", "good"}), (False, {"bad", "warn"})):
        report = the_report(is_proved)
        yield from differs(f"tones, proved: {is_proved}", {row.tone for row in rows_of(report)},
                           tones)
        yield from differs(f"said, proved: {is_proved}", rules.UNPROVED in plain(page(report)),
                           not is_proved)
        said = {row["program is proved"] for row in csv.DictReader(io.StringIO(table(report)))}
        yield from differs(f"CSV, proved: {is_proved}", said, {"yes" if is_proved else "no"})


def check_strength(_, __):
    """The stronger of two answers' words is the one that the program's answers would give."""
    by_word = {}
    for word, answers in ROWS:
        by_word.setdefault(word, answers)
    for one, other in itertools.permutations(by_word, 2):
        expected = rules.verdict(by_word[one] + by_word[other], True).word
        found = verdicts.strongest([(one, ""), (other, "")])[0]
        yield from differs(f"{one} and {other}", found, expected)


def check_agreement(_, __):
    """CSV has the configuration's word beside each question. JUnit fails each answer that is not
    good, with the word as type. A report's hazard is never called good."""
    report = the_report()
    results = [(row, result) for row in rows_of(report) for result in row.results]
    lines = list(csv.DictReader(io.StringIO(table(report))))
    yield from differs("CSV", [(line["configuration"], line["verdict"], line["outcome"])
                               for line in lines],
                       [(row.name, row.verdict, result.outcome) for row, result in results])
    suite = xml.etree.ElementTree.fromstring(junit(report))[0]
    failed = [(case.get("classname"), case.find("failure").get("type"))
              for case in suite.iter("testcase") if case.find("failure") is not None]
    yield from differs("JUnit", failed,
                       [(row.name, result.outcome) for row, result in results
                        if result.outcome not in ("good", "left out", "no answer")])
    yield from differs("failures", int(suite.get("failures")), len(failed))
    for name in ("both", "found"):
        outcome = [line["outcome"] for line in lines if line["configuration"] == name][1]
        yield from differs(name, outcome, rules.HAZARD_FOUND)


def check_links(_, __):
    """Links are named by their contents. A hazard links to its frame or its run. Checksums are
    folded."""
    report = the_report()
    links = {row.name: plain_links(report, row) for row in rows_of(report)}
    run, rules_ = "Show the run to the hazard", "broken rules (check)"
    expected = {"found": ["Show the hazard in the HTML report", rules_, "HTML report (html)"],
                "unsafe": [run, rules_, "run to the hazard (verify)"],
                "driven": [run, "run to the hazard (drive)"],
                "safe": ["answer (check)", "answer (verify)", "answer (audit)"], "nothing": []}
    for name, words in expected.items():
        yield from differs(name, links[name], words)
    shown = page(report)
    folded = re.findall("<details>(.*?)</details>", shown, re.S)
    yield from differs("answers with checksums", len(folded),
                       sum(len(row.results) for row in rows_of(report)))
    open_ones = [
        line for line in re.sub("<details>.*?</details>", "", shown, flags=re.S).split("<code>")[1:]
    ]
    yield from differs("checksums that are not folded",
                       [line.partition("<")[0] for line in open_ones], ["p"])


def plain_links(report, row):
    """Returns the words of the links in an index row, in order."""
    shown = page(report)
    start = shown.index(f'<td class="name">{row.name}</td>')
    begin = shown.rindex("<tr ", 0, start)
    return [
        plain(part.partition(">")[2])
        for part in shown[begin:shown.index("</tr>", start)].split("<a ")[1:]
        for part in [part.partition("</a>")[0]]
    ]


VerdictTests = test_case("VerdictTests", [
    check_words, check_order, check_contradictions, check_proof, check_strength, check_agreement,
    check_links
], Test)
