"""The broken rules on the page."""

from __future__ import annotations

from typing import TYPE_CHECKING

from irvtools.calls.program import Answer
from irvtools.rules import schema_rules
from irvtools.rules import broken_rules
from irvtools.search.random_search import suspects_of
from irvtools.html.markup import code, tag, text
from irvtools.html.run_frames import trouble
from irvtools.model.descriptions import counted
from irvtools.model.phrases import join

if TYPE_CHECKING:
    from irvtools.html.report import Report

PICTURED = 24           # broken rules with a picture
WORDED = 600            # with a sentence


def rules_part(page: Report, answer: Answer, lines: list[str]) -> None:
    """Adds the broken rules."""
    page.head("Rules", "rules")
    page.show(answer)
    names = list(dict.fromkeys(line.split(" ")[1] for line in lines))
    first = f" (the first: {lines[0]})" if lines else ""
    page.sum_up("Rules", f"{counted(len(lines), 'rule')} broken: {join(names)}{first}" if lines
                else answer.said)
    if answer.status == 0:
        page.add(tag("p", text("No rule of the schema, the network, the table and its columns is "
                               "broken. This "
                               "alone proves that no run from the initial state ends in a "
                               "hazard.")))
    elif not lines:
        page.add(trouble("This is no answer about the configuration, so the page ends here."))
    elif lines[0].startswith("refused F"):
        form_part(page, lines[0])
    elif page.plant:
        broken_part(page, lines)


def form_part(page, line):
    """Adds the violation of the JSON schema."""
    _, rule, place = line.split(" ")
    sentences = schema_rules.faults(rule, place, page.given)
    if not sentences:
        page.own("The page has no sentence for this fault; docs/reference/formats.md has the rule.")
    for sentence in sentences[:PICTURED]:
        page.add(tag("p", tag("b", text(sentence))))
    page.add(tag("p", text("These sentences are the page's own. A configuration that breaks the "
                           "schema is "
                           "not read, and nothing else is asked about it."), class_="small"))


def broken_part(page, lines):
    """Adds the broken rules of network, table and columns."""
    page.add(tag("p", text(f"{len(lines)} rules are broken. irv answered which and where. The "
                           f"sentences and "
                           "pictures are the page's own."
                           if len(lines) > 1 else
                           "One rule is broken. irv answered which and where. The sentence and the "
                           "picture "
                           "are the page's own.")))
    read = [broken_rules.read_line(line) for line in lines]
    resting = [one for one in read if broken_rules.rests(page.plant, *one)]
    page.is_endangered, page.suspects = bool(resting), suspects_of(page.plant, resting)
    for number, (line, (rule, places)) in enumerate(zip(lines[:WORDED], read)):
        sentences = broken_rules.sentences(page.plant, rule, places)
        words = tag("p", code(line)) + "".join(
            tag("p", tag("b", text(sentence))) for sentence in sentences)
        words += tag("p", text(broken_rules.safety(page.plant, rule, places)), class_="small")
        if number < PICTURED:
            words += page.drawing.plan(broken_rules.where(page.plant, rule, places), line)
        page.add(tag("div", words, class_="broken", id=f"rule-{number + 1}"))
    if len(lines) > PICTURED:
        page.own(f"Left out: the pictures of all but the first {PICTURED} broken rules"
                 + (f", and the sentences of all but the first "
                    f"{WORDED}." if len(lines) > WORDED else "."))
