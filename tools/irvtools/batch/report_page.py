"""The index of a batch: a row per configuration, worst first, then the answers."""

from __future__ import annotations

import math
from pathlib import Path
from typing import Any

from irvtools.batch.batch_report import CONTRADICTION, GOOD, LEFT_OUT, NO_ANSWER
from irvtools.batch.batch_report import rows_of, verdict_counts
from irvtools.batch.report_style import CSS
from irvtools.calls.verdict import HAZARD_FOUND, RANKING, REFUSED, UNPROVED
from irvtools.html.markup import code, tag, text
from irvtools.html.style import document

FILE = "index.html"
SCRIPT = Path(__file__).with_name("index.js")
HEADER = ("verdict", "configuration", "sections", "points", "routes", "broken rules", "safe by",
          "seconds", "MiB", "files")
ANSWER_HEADER = ("configuration", "question", "outcome", "answer", "machine", "checksums (SHA-256)")
# Run names, by the first word of verify's first line.
RUNS = {"unsafe": "run to the hazard", "breach": "run to the breach of the invariant",
        "not": "step out of the invariant"}


def short_question(row, result):
    """Returns a question's kind if no other in the row has it, otherwise the whole question."""
    kinds = [each.kind for each in row.results]
    return result.kind if kinds.count(result.kind) == 1 else result.question


def files_shown(row):
    """Returns the links to a row's answer files, each with meaning and target."""
    for result in row.results:
        paths = {role: path for role, path, _ in result.files()}
        names = {"html": "HTML report", "certificate": "certificate", "report": report_name(result)}
        for role in (role for role in names if role in paths):
            yield f"{names[role]} ({short_question(row, result)})", paths[role]


def report_name(result):
    """Returns what a call's output shows."""
    first = result.line.split(" ")[0]
    if first == "refused":
        return "broken rules"
    if result.kind == "verify":
        return RUNS.get(first, "answer")
    if result.kind == "drive" and first != "rejected":
        return "run to the hazard" if first == "hazard" else "driven run"
    return "answer"


def hazard_link(row):
    """Returns the link to a row's hazard, if any: an HTML report's frame, or else an answer's run."""
    if row.verdict != HAZARD_FOUND:
        return ""
    found = [each for each in row.results if each.word == HAZARD_FOUND]
    pages = [(path, each.answer["anchor"]) for each in found for role, path, _ in each.files()
             if role == "html"]
    for path, anchor in pages:
        return tag("a", "Show the hazard in the HTML report",
                   href=f"{path}#{anchor}" if anchor else path)
    runs = [path for each in found for role, path, _ in each.files() if role == "report"]
    return tag("a", "Show the run to the hazard", href=runs[0]) if runs else ""


def verdict_cell(row):
    """Returns the cell with word, sentence, hazard link, and unanswered questions."""
    parts = [
        tag("span", text(row.verdict), class_="word") + text(f". {row.sentence}"),
        hazard_link(row)
    ]
    parts += [
        tag("div", text(f"{each.question}: {each.line}"), class_="small") for each in row.missing
    ]
    return " ".join(filter(None, parts))


def rules(row):
    """Returns the answer of check about the rules."""
    lines = [each.line for each in row.results if each.kind == "check"]
    return "; ".join(lines) or "not asked"


def row_markup(row, number):
    """Returns a row of the index; `number` is its position."""
    sizes = row.sizes or {}
    seconds = math.fsum(each.measure("seconds") for each in row.results)
    memory = max([each.measure("memory_kib", max) for each in row.results], default=0) / 1024
    links = [tag("a", text(words), href=path) for words, path in files_shown(row)]
    safe_questions = [short_question(row, each) for each in row.results if each.says_safe]
    cells = [tag("td", verdict_cell(row), class_="said", data_key=number),
             tag("td", text(row.name), class_="name"),
             *(number_cell(what, sizes.get(what, "–")) for what in HEADER[2:5]),
             labelled("broken rules", text(rules(row)), "rules"),
             labelled("safe by", text(", ".join(safe_questions) or "–")),
             number_cell("seconds", f"{seconds:.1f}"), number_cell("MiB", f"{memory:.0f}"),
             labelled("files", " ".join(links), "links")]
    return tag("tr", "".join(cells), class_=row.tone, data_word=row.verdict)


def number_cell(label, value):
    """Returns a cell with a number."""
    return labelled(label, text(value), "number")


def labelled(label, markup, class_=None):
    """Returns a cell that shows its column's title on a narrow screen."""
    return tag("td", markup, class_=class_, data_label=label)


def index(rows):
    """Returns the table of configurations."""
    head = tag("thead", tag("tr", "".join(tag("th", text(word), scope="col") for word in HEADER)))
    body = "\n".join(row_markup(row, number) for number, row in enumerate(rows))
    return tag("table", head + tag("tbody", "\n" + body), class_="index")


def tools(rows):
    """Returns the controls that filter the table. The script shows them."""
    words = [row.verdict for row in rows]
    options = tag("option", "all", value="") + "".join(
        tag("option", text(f"{word} ({words.count(word)})"), value=word)
        for word in RANKING if word in words)
    return ('<div class="tools" hidden>'
            + tag("label", "Filter " + '<input type="search" size="30">')
            + tag("label", "Verdict " + tag("select", options))
            + '<output aria-live="polite"></output></div>')


def tone_of(result):
    """Returns the colour of an outcome."""
    if result.outcome in (CONTRADICTION, HAZARD_FOUND, NO_ANSWER):
        return "bad"
    return "warn" if result.outcome not in (GOOD, LEFT_OUT) else None


def answer_rows(row):
    """Returns a row per question: outcome, answer, and folded checksums."""
    for result in row.results:
        sums = [("configuration", row.checksum), ("job", result.key),
                *((role, checksum) for role, _, checksum in result.files())]
        folded = tag("details", tag("summary", "show") + "".join(
            tag("div", text(role + " ") + code(checksum)) for role, checksum in sums))
        by = result.machines() + [f"solver {each}" for each in result.solvers()]
        outcome = tag("span", text(result.outcome), class_=f"word {tone_of(result) or ''}".strip())
        cells = (text(row.name), text(result.question), outcome, text(result.line),
                 text("; ".join(by)), folded)
        yield tag("tr", "".join(labelled(*pair) for pair in zip(ANSWER_HEADER, cells)))


def answers(rows):
    """Returns the table of answers."""
    head = tag("thead",
               tag("tr", "".join(tag("th", text(word), scope="col") for word in ANSWER_HEADER)),
               class_="plain")
    return tag("table",
               head + tag("tbody", "\n".join(line for row in rows for line in answer_rows(row))))


def notes(report, rows):
    """Returns what a reader must know first."""
    missing = sum(len(row.missing) for row in rows)
    wrong = sum(row.is_contradiction for row in rows)
    found = []
    if not report["is_proved"]:
        found.append((UNPROVED, "remark"))
    if wrong:
        found.append((f"Contradictions: {wrong}. The program, a machine or this directory is "
                      "wrong, and no answer here can be relied on.", "remark bad"))
    if missing:
        found.append((f"Missing answers: {missing}. The next call asks again.", "remark bad"))
    if any(row.verdict == REFUSED for row in rows):
        found.append(("REFUSED says that a rule is broken, and nothing about safety. The question "
                      "html searches for a run to a hazard of such a table too.", "small"))
    return [tag("p", text(words), class_=class_) for words, class_ in found]


def foundations(report):
    """Returns what the answers depend on."""
    proved = "known to be proved" if report["is_proved"] else "not known to be proved"
    return tag("p", text("Each answer is one of the program with the checksum ")
               + code(report["program"])
               + text(f", which is {proved}, about the bytes of a configuration; irv "
                      f"{report['version']}, {report['engine']}. ./irv --batch --verify-report "
                      "checks each certificate, refutation and run again, on one machine. The "
                      "scripts that ask and make this page are tested, not proved."))


def page(report: dict[str, Any]) -> str:
    """Returns the page as a text."""
    rows, title = rows_of(report), "Batch verification of interlockings"
    counts = f"{len(rows)} configurations of {report['directory']}: {verdict_counts(rows)}."
    parts = [tag("h1", title), tag("p", text(counts)), *notes(report, rows), tools(rows),
             index(rows), tag("h2", "Answers to all questions"), answers(rows),
             tag("h2", "What this depends on"), foundations(report)]
    script = f"<script>\n{SCRIPT.read_text(encoding='utf-8')}</script>"
    return document(title, "\n".join([*parts, script]), CSS)
