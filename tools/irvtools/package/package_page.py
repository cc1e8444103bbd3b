"""The page that leads through a package: questions, answers, program, assumptions, application
conditions, and signatures."""

from __future__ import annotations

import shlex
from pathlib import Path

from irvtools.calls import provenance
from irvtools.html.markup import code, table, tag, text
from irvtools.html.style import CSS
from irvtools.package.deviations import Deviation
from irvtools.package.findings import Findings
from irvtools.package.package_parts import ARCHIVE, CONFIGURATION
from irvtools.package.program_version import PROVED

# The signers, each with a purpose.
SIGNATURES = (
    ("author of the configuration",
     "The configuration is the railway outside and the table of the interlocking (AS-01)."),
    ("railway expert",
     "Trains, points, boards and the interlocking behave as the event table says (AS-02), and each "
     "application condition is met or does not apply."),
    ("reviewer of the definitions",
     "The definitions mean what is intended (AS-03); the record of that review is a form of the "
     "qualification page."),
    ("maker of this package",
     "The program is the proved one (AS-09), and the answers are those in this directory."),
    ("verifier", "The answers were read correctly, and each deviation was decided on."),
    ("assessor", "All of the above is true, independently of those who sign it."),
)
QUALIFICATION = "documents/docs/assurance/qualification.md"
# The page's documents, each with its meaning.
DOCUMENTS = (
    (QUALIFICATION, "qualification: assumptions, application conditions, failure modes"),
    ("documents/docs/assurance/definitions.md", "definitions: which to read for which answer"),
    ("documents/docs/assurance/definition-list.md", "list of the definitions, with links to files"),
    ("documents/docs/assurance/proved.md", "what is proved"),
    ("documents/docs/reference/commands.md", "commands, answers and exit statuses"),
    ("documents/docs/reference/formats.md", "formats of configuration, run and certificate"),
    ("documents/docs/reference/model.md", "the model: events, hazards and rules"),
    ("documents/docs/guides/evidence-package.md", "this kind of package"),
    ("documents/README.md", "first page of the documents"),
)
ROOM, MORE_CSS = ("", "&#160;<br>&#160;"), "td:has(br){min-width:9em}"      # for a signature


def link(file: str, words: str | None = None) -> str:
    """Returns a link to a package file."""
    return tag("a", text(words or file), href=file)


class PackagePage:
    """The page of one package. `facts` is the record besides the calls, `version` the lines of the
    version file."""

    def __init__(self, room: Path, facts: dict, findings: Findings, version: list[str]):
        self.room, self.facts, self.findings, self.version = room, facts, findings, version
        self.parts = []

    def add(self, *markup: str) -> None:
        """Adds markup."""
        self.parts.extend(markup)

    def head(self, title: str) -> None:
        """Adds a heading."""
        self.add(tag("h2", text(title)))

    def say(self, *sentences) -> None:
        """Adds a paragraph of texts; a tuple has markup."""
        markup = [it[0] if isinstance(it, tuple) else text(it) for it in sentences]
        self.add(tag("p", " ".join(markup)))

    def whole(self) -> str:
        """Returns the page as a document."""
        about = self.facts["about"]
        title = about.get("title") or f"Evidence package of {self.facts['configuration']}"
        self.add(tag("h1", text(title)))
        rows = [[key, value] for key, value in about.items() if key != "title"]
        self.add(*([table([], rows)] if rows else []))
        for part in (self.result, self.deviations, self.given, self.answers, self.others, self.runs,
                     self.assumptions, self.conditions, self.signatures, self.documents, self.check,
                     self.foot):
            part()
        return ('<!doctype html>\n<html lang="en"><head><meta charset="utf-8">'
                '<meta name="viewport" content="width=device-width, initial-scale=1">'
                f"<title>{text(title)}: irv</title><style>{CSS}{MORE_CSS}</style></head><body>\n"
                + "\n".join(self.parts) + "\n</body></html>\n")

    # -- the result

    def result(self) -> None:
        """Adds the table's result."""
        found = self.findings
        self.head("Result")
        if not found.contradictions:
            verdict = found.verdict_of_all(self.version[-1] == PROVED)
            _, _, rest = verdict.line.partition(". ")
            self.add(tag("p", f"{tag('b', text(verdict.word))} {text(rest)}",
                         class_=f"verdict {verdict.tone}"))
        self.say("In one line:", (code(found.said),))
        if not found.is_plant:
            self.say("The configuration is not a plant. Only its rules were checked, and this "
                     "package shows nothing about its safety.")
        elif found.contradictions:
            self.say("Answers of this package cannot both be right. The program, a tool or the "
                     "machine is wrong. Use nothing of this package before you know which.")
        elif found.is_safe:
            self.safe_ways()
        elif found.hazard:
            self.say("The table is not safe: a run from the initial state ends in a hazard. That "
                     "it is a run, and ends so, is an answer of irv replay or irv drive.")
        elif found.is_clean or found.is_safe_with_deviations:
            self.safe_ways()
        else:
            self.say("It is not shown that the table is safe, and no run to a hazard was found. Do "
                     "not file this package as evidence of safety.")
        if self.version[-1] != PROVED:
            self.add(tag("p", text(f"The program is {self.version[-1]}. Do not use answers of such "
                                   "a program in a safety case."), class_="own bad"))

    def safe_ways(self) -> None:
        """Adds how the table is shown to be safe."""
        is_clean = self.findings.is_clean
        if is_clean:
            self.say("No rule is broken with strict columns. That alone is a proof that no run "
                     "from the initial state, of any length, ends in a hazard: a clause of the "
                     "program's contract.")
        elif self.findings.is_safe_with_deviations:
            self.say("Only rules are broken on which safety does not depend. That alone is a proof "
                     "that no run from the initial state, of any length, ends in a hazard: a clause "
                     "of the program's contract.")
        if self.findings.is_safe:
            self.say("irv verify answered that no run of any length ends in a hazard, and wrote a "
                     "certificate, which irv audit and tools/audit accepted.")
        else:
            self.say("There is no certificate, and nothing that others could check. The answer of "
                     f"irv verify: {self.findings.verdict.told}.")

    def deviations(self) -> None:
        """Adds each broken rule and its meaning."""
        self.head("Deviations")
        deviations = self.findings.deviations
        if not deviations:
            self.say("None: the table breaks no rule.")
            return
        self.say("irv check answered which rules are broken, and at which place. The sentences, "
                 "and whether safety depends on a deviation, come from tools in Python, which are "
                 "tested and not proved.")
        rows = [[("", code(it.line)), " ".join(it.sentences), "yes" if it.is_resting else "no",
                 it.safety, self.way(it), ROOM] for it in deviations]
        self.add(table(["deviation", "meaning", "does safety depend on it", "why",
                        "how the table is safe with it", "accepted by, and reason"], rows))

    def way(self, deviation: Deviation) -> str:
        """Returns how the table with a deviation is safe, or that it is not."""
        found = self.findings
        if not found.is_plant:
            return "Not shown: there is no plant, and no verdict."
        if found.contradictions:
            return "Not shown, before the contradiction above is resolved."
        if found.is_safe:
            return (f"By the certificate of irv verify with free columns ({found.verdict.line}), "
                    "which is about the table with all its deviations.")
        if found.hazard:
            return f"It is not safe: {found.hazard}."
        if found.is_safe_with_deviations:
            return "By a clause of the program's contract: safety does not depend on this rule."
        if not deviation.is_resting:
            return ("Not shown. A table with only this deviation, and with no other on which "
                    "safety depends, would be safe.")
        return f"Not shown: {found.verdict.told}."

    # -- questions

    def given(self) -> None:
        """Adds the configuration and the program."""
        self.head("Configuration and program")
        data = (self.room / CONFIGURATION).read_bytes()
        filed = f"sha256 {provenance.sum_of(data)}, {len(data)} bytes, filed as {CONFIGURATION}"
        rows = [("configuration", f"{self.facts['configuration']}: {filed}")]
        rows += [*(line.split(" ", 1) for line in self.version[:-1]), ("proof", self.version[-1])]
        options = shlex.join(self.facts["options"])
        rows.append(("options", options or "none: the defaults of irv verify"))
        self.add(table([], [[name, ("", code(value))] for name, value in rows]))

    def answers(self) -> None:
        """Adds the program's answers."""
        self.head("Answers of the program")
        self.say("If the program is the proved one (AS-09), its answers are proved, on the "
                 "assumptions below. Each call was made in this directory.")
        self.table_of(call for call in self.findings.calls if call.is_of_program)

    def others(self) -> None:
        """Adds other tools' answers."""
        self.head("Answers of other tools")
        self.say("These tools are tested and not proved. An answer of a checker is a second check "
                 "of the program's answer. The report and the random search only show what the "
                 "program answers.")
        for version, name in self.facts["solvers"]:
            self.say(f"{version}: the last line of tools/verify_with is: "
                     f"{self.findings.call(name).last}.")
        if self.facts["solvers"]:
            self.say("No result depends on a solver: irv rup checked each refutation that is kept. "
                     "That all queries were asked depends on tools/verify_with.")
        elif self.findings.is_plant and self.findings.is_safe:
            self.say("No other solver was asked: none that writes refutations was installed, or "
                     "none was wanted.")
        self.table_of(call for call in self.findings.calls if not call.is_of_program)

    def table_of(self, calls) -> None:
        """Adds some calls and answers."""
        rows = [[("", code(call.shown)), str(call.status),
                 ("", code(call.told if call.is_of_program else call.last)),
                 ("", link(f"answers/{call.name}.txt"))] for call in calls]
        self.add(table(["call", "status", "line", "whole answer"], rows, "calls"))

    def runs(self) -> None:
        """Adds the given runs and scenarios, and the report."""
        self.head("Runs, scenarios and report")
        if not self.facts["runs"]:
            self.say("No run and no scenario was given.")
        elif not self.findings.is_plant:
            self.say("The given runs and scenarios were not answered, because there is no plant.")
        for file, name, kind in self.facts["runs"]:
            self.say(f"{name}, a {kind}:", (link(file),))
        if (self.room / "report.html").exists():
            self.say("The HTML report shows the track plan, the rules in sentences and the runs:",
                     (link("report.html"),))

    # -- dependencies, signatures

    def assumptions(self) -> None:
        """Adds the assumptions, by identifier."""
        self.head("Assumptions")
        items = provenance.items("AS")
        if not items:
            self.say("docs/assurance/qualification.md does not exist, so no assumption is quoted "
                     "here.")
            return
        self.say("Each answer depends on these. In full:", (link(QUALIFICATION),))
        self.add(table(["assumption", "about", "statement"],
                       [[it.name, it.title, it.statement] for it in items]))

    def conditions(self) -> None:
        """Adds the application conditions, with room for the measures."""
        self.head("Application conditions")
        items = provenance.items("SRAC")
        if not items:
            self.say("docs/assurance/qualification.md does not exist, so no condition is quoted "
                     "here.")
            return
        self.say("The railway and the user deal with these safety-related application conditions "
                 "(SRAC). The package is complete only with an answer to each.")
        self.add(table(["condition", "about", "statement", "duty holder", "discharged by",
                        "what is done, or why it does not apply", "name, date"],
                       [[it.name, it.title, it.statement, it.lines.get("Duty holder", ""),
                         it.lines.get("Discharged by", ""), ROOM, ROOM] for it in items]))

    def signatures(self) -> None:
        """Adds the signatures."""
        self.head("Signatures")
        self.say("Write here the checksum of SHA256SUMS, which has the checksums of all other "
                 "files. irv --package, irv --verify-package and sha256sum SHA256SUMS print it. So "
                 "the signatures are for this directory:")
        self.add(table(["sha256 of SHA256SUMS"], [[ROOM]]))
        self.add(table(["who", "signs that", "name and role", "date", "signature"],
                       [[who, what, ROOM, ROOM, ROOM] for who, what in SIGNATURES]))

    def documents(self) -> None:
        """Adds the documents and sources."""
        self.head("Documents and sources")
        items = [tag("li", f"{link(file)}: {text(what)}") for file, what in DOCUMENTS
                 if (self.room / file).is_file()]
        items.append(tag("li", f"{link(ARCHIVE)}: all sources of this version, with its documents, "
                               "tools and tests"))
        self.add(tag("ul", "\n".join(items)))

    def check(self) -> None:
        """Adds how to check the package."""
        self.head("Check this package")
        self.say((code("irv --verify-package DIRECTORY"),), "or",
                 (code("python3 verify_package.py DIRECTORY"),), "of a release judges "
                 "this directory from outside. It checks checksums, links and completeness, makes "
                 "answers, pages and script again, and compares documents and checkers with the "
                 "sources.")
        self.say((code("./repeat.sh [PROGRAM]"),),
                 "makes each answer again, by the program in this directory or by another one, and "
                 "reports what differs. It needs bash, the standard tools of Linux, and Python 3 "
                 "for checkers/. It changes nothing.")
        self.say("The output of a solver and the random search are not made again. The files of "
                 "lrat/ are for other checkers of LRAT: for each query a formula (.cnf) and its "
                 "refutation.")

    def foot(self) -> None:
        """Adds what this page is."""
        self.add(tag("p", text("irv --package, which wrote this page, is tested and not proved. It "
                               "quotes answers; the files in answers/ are the output, byte for "
                               "byte. No program says whether the assumptions and the application "
                               "conditions hold."), class_="foot small"))
