"""The simulator's page before its script runs.

For a configuration that is not a plant, it says why, in the report's words.
"""

import base64
import hashlib

from irvtools.calls.proved_program import is_proved
from irvtools.calls.verdict import verdict
from irvtools.rules import broken_rules
from irvtools.simulate import scripts
from irvtools.html.rules_section import rules_part
from irvtools.html.markup import code, tag, text
from irvtools.html.report import ASK_SECONDS, Report, counts_words
from irvtools.html.style import VIEWPORT
from irvtools.simulate.plan_geometry import geometry
from irvtools.trackplan.signs import legend

WORDED = 24             # broken column rules with a sentence


def sum_of(script):
    """Returns the checksum of a script, by which a page allows it."""
    return base64.b64encode(hashlib.sha256(script.encode()).digest()).decode()


class SimulatorPage(Report):
    """A page in progress. It uses two options: the configuration's name and the program. `outcome`
    is the verdict's line, once made."""

    outcome = ""

    def make(self):
        """Makes the whole page."""
        strict = self.ask(["check", "--columns", "strict"], ASK_SECONDS)
        self.count(strict, "strict")
        self.verdict = verdict(self.answered, is_proved(self.options.program_file))
        lines = [line for line in strict.output.splitlines() if line.startswith("refused ")]
        if self.is_read(strict, lines):
            self.read_plant()
        is_plant = self.plant is not None and (
            strict.status == 0 or bool(lines) and lines[0].startswith("refused C"))
        self.outcome = self.verdict.line
        return self.simulated(lines) if is_plant else self.refused(strict, lines)

    # -- a configuration that is not a plant

    def refused(self, answer, lines):
        """Makes the page that says why there is nothing to simulate."""
        self.add(tag("h1", text(f"{self.options.name}: nothing to simulate")), self.verdict_line())
        if self.plant is not None:
            self.add(self.drawing.definitions())
        elif self.is_read(answer, lines):
            self.own("The page cannot read what irv reads.")
        self.add(tag("p", text(
            "This configuration is not a plant, so no train can run on it. irv check answers:"
            if lines else "irv check gave no answer, so it is not known whether this is a plant.")))
        rules_part(self, answer, lines)
        return self.document("".join(self.parts), "")

    # -- a plant

    def columns(self, lines):
        """Returns the columns for replays, and the broken rules as markup."""
        if not lines:
            return "strict", ""
        sentences = [tag("li", code(line) + " " + text(" ".join(self.sentences(line))))
                     for line in lines[:WORDED]]
        if len(lines) > WORDED:
            sentences.append(tag("li", text(f"and {len(lines) - WORDED} more")))
        head = (f"This table breaks {len(lines)} rules of the columns" if len(lines) > 1
                else "This table breaks one rule of the columns")
        return "free", tag("details", tag("summary", text(f"{head}. It is simulated with free "
                                                          f"columns."))
                           + tag("ul", "".join(sentences)), class_="small own")

    def sentences(self, line):
        """Returns a broken rule in words."""
        rule, places = broken_rules.read_line(line)
        return broken_rules.sentences(self.plant, rule, places)

    def simulated(self, lines):
        """Makes the page of a plant."""
        columns, words = self.columns(lines)
        value = {"name": self.options.name, "sum": hashlib.sha256(self.given).hexdigest(),
                 "columns": columns, "plant": scripts.plant_value(self.plant),
                 "plan": geometry(self.drawing)}
        if self.drawing.is_torn():
            words += tag("p", text("A joint that fits no row of the plan is a dotted red line."),
                         class_="small own")
        page = scripts.page()
        for mark, markup in (("TITLE", text(self.options.name)), ("COUNTS", text(counts_words(self.plant))),
                             ("VERDICT", self.verdict_line()), ("RULES", words), ("LEGEND", legend()),
                             ("DEFINITIONS", self.drawing.definitions()), ("COLUMNS", columns),
                             ("PLANT", scripts.as_json(value))):
            page = page.replace(f"<!--{mark}-->", markup)
        return self.document(page, scripts.script(scripts.MODEL + scripts.VIEW))

    def document(self, body, script):
        """Returns the document. It opens nothing, and no other script runs."""
        allowed = f"'sha256-{sum_of(script)}'" if script else "'none'"
        policy = (f"default-src 'none'; style-src 'unsafe-inline'; script-src {allowed}; "
                  "base-uri 'none'; form-action 'none'")
        return ("<!doctype html>\n<html lang=\"en\"><head><meta charset=\"utf-8\">"
                f"<meta http-equiv=\"Content-Security-Policy\" content=\"{policy}\">{VIEWPORT}"
                f"<title>{text(self.options.name)}: irv simulator</title>"
                f"<style>{scripts.style()}</style></head><body>\n{body}\n"
                + (f"<script>{script}</script>\n" if script else "") + "</body></html>\n")
