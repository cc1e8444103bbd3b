"""The report: the verdict first, then its parts. Each answer is the program's; the rest is marked
as the report's own."""

from __future__ import annotations

from pathlib import Path

from irvtools.rules import schema_rules
from irvtools.html.advice_section import advice_part
from irvtools.calls.program import Program
from irvtools.calls.progress import Progress
from irvtools.calls.proved_program import is_proved
from irvtools.calls.verdict import Answered, verdict
from irvtools.html.rules_section import rules_part
from irvtools.trackplan.drawing import Drawing
from irvtools.trackplan.signs import legend
from irvtools.html.run_frames import HAZARD_ID
from irvtools.html.run_section import given_part
from irvtools.html.markup import code, tag, text
from irvtools.csvtables.labels import Labels, labelled
from irvtools.model.plant import Plant
from irvtools.html.control_table import sheet_part
from irvtools.html.routes_section import routes_part
from irvtools.model.descriptions import counted
from irvtools.model.phrases import join
from irvtools.html.assessment_section import safety_part
from irvtools.html.style import document
from irvtools.html.verdict_section import verdict_part

ASK_SECONDS = 60        # for check
VERDICT_ID = "verdict"


class Report:
    """A report in the making."""

    def __init__(self, options, given, given_run=None, has_times=True):
        self.options, self.given, self.given_run = options, given, given_run
        self.has_times = has_times
        self.program = Program(options.program, given)
        self.progress = Progress("irv")
        self.calls = []         # calls for the safety case
        self.answered = []      # answers behind the verdict
        self.parts, self.heads, self.ids = [], [], set()
        self.plant = self.drawing = self.verdict = None
        self.labels = getattr(options, "labels", None) or Labels()
        self.suspects = []      # routes to search first
        self.is_refused = self.is_endangered = False    # a rule is broken; one that safety depends on
        self.has_cert = False
        self.by_rule = set()    # boards that an import placed by rule
        self.said = []          # answer lines below the verdict
        self.summary = []       # the same with markup

    def add(self, *markup):
        """Adds markup."""
        self.parts.extend(markup)

    def titled(self, title, id_):
        """Returns a part's title as markup, and adds it to the table of contents."""
        self.heads.append((title, id_))
        return tag("h2", text(title), id=id_)

    def head(self, title, id_):
        """Adds a part's title."""
        self.add(self.titled(title, id_))

    def own(self, words):
        """Adds a comment that is the report's own."""
        self.add(tag("p", text(words), class_="own"))

    def sum_up(self, head, line, *markup):
        """Adds a line below the verdict, on the page and in print. Markup may follow."""
        self.said.append(f"{head}: {line}")
        self.summary.append(tag("b", text(f"{head}: ")) + text(line) + "".join(markup))

    def time(self, words):
        """Returns words about a duration, if the report shows durations."""
        return words if self.has_times else ""

    def ask(self, words, seconds):
        """Asks the program and records the call."""
        self.progress.say(f"irv {' '.join(words)}")
        answer = self.program.ask(words, seconds)
        self.calls.append(answer)
        return answer

    def count(self, answer, columns, run=""):
        """Counts an answer for the verdict."""
        self.answered.append(Answered(answer.words[0], columns, answer.status, answer.output, True,
                                      run))

    def show(self, answer):
        """Adds a call with its answer."""
        status = "no status" if answer.status is None else f"status {answer.status}"
        self.add(tag("p", f"{code('irv ' + ' '.join(answer.words))} "
                     f"<b>{code(answer.said)}</b> "
                     f"({status}{self.time(f', {answer.seconds:.1f} s')})",
                     class_="answer"))

    def show_shortly(self, answer):
        """Adds a call with only its status, as its answer is long."""
        status = "no status" if answer.status is None else f"status {answer.status}"
        said = "" if answer.status == 0 else f" {code(answer.said)}"
        self.add(tag("p", f"{code('irv ' + ' '.join(answer.words))}{said} "
                          f"({status})", class_="small"))

    # -- the parts

    def make(self):
        """Returns the whole report."""
        answer = self.ask(["check", "--columns", "strict"], ASK_SECONDS)
        self.count(answer, "strict")
        lines = [line for line in answer.output.splitlines() if line.startswith("refused ")]
        self.is_refused = bool(lines)
        if self.is_read(answer, lines):
            self.read_plant()
        self.plan_part()
        if self.plant is None and self.is_read(answer, lines):
            self.own("The report cannot read what irv reads, so it has no pictures and no runs.")
        rules_part(self, answer, lines)
        is_plant = answer.status == 0 or lines and lines[0].startswith("refused C")
        if self.plant and is_plant:
            self.of_plant("free" if lines else self.options.columns)
        elif self.given_run:
            self.own(f"{self.given_run.name} is not shown: a configuration that is not a plant has "
                     f"no runs "
                     "and no scenarios.")
        self.has_cert = self.is_cert_left()
        safety_part(self)
        return self.whole()

    def of_plant(self, columns):
        """Adds the parts about a plant."""
        if not self.plant.routes:
            self.sum_up("Movements", no_train_moves(self.plant))
        verdict_part(self, columns, self.is_refused)
        if self.given_run:
            given_part(self, columns)
        self.progress.say("runs that use the routes")
        unused = routes_part(self, columns)
        advice_part(self, unused)
        sheet_part(self)

    def is_cert_left(self):
        """Returns whether verify left a certificate that stays."""
        wrote = any(call.words[0] == "verify" and call.status in (0, 4) for call in self.calls)
        return wrote and self.options.is_cert_kept and Path(self.options.cert).is_file()

    def is_read(self, answer, lines):
        """Returns whether the configuration has the required form."""
        return answer.status == 0 or bool(lines) and not lines[0].startswith("refused F")

    def read_plant(self):
        """Reads what `irv` read, for the pictures."""
        value, unread = schema_rules.read(self.given)
        if unread is None:
            self.plant = Plant(value)
            hollow = [board.number for board in self.plant.boards if board.name in self.by_rule]
            self.drawing = Drawing(labelled(self.plant, self.labels), hollow)

    def plan_part(self):
        """Adds the track plan with its legend."""
        plant = self.plant
        if plant is None:
            return
        self.add(self.drawing.definitions())
        self.head("Track plan", "plan")
        self.add(tag("p", text(counts_words(plant)), class_="small"))
        self.add(self.drawing.plan())
        if self.drawing.is_torn():
            self.own("Some sections do not fit into the plan. A joint that fits no row is a dotted "
                     "red line, "
                     "and a joint that would close a circle is left out.")
        self.add(legend())
        if self.drawing.hollow:
            self.own(f"{counted(len(self.drawing.hollow), 'board')}, drawn hollow, were placed by "
                     f"a rule of the "
                     "import and are not in the imported data. Check each of them.")
        self.add(tag("p", text("Boards above a line are for trains that run up, from left to "
                               "right; boards "
                               "below it are for trains that run down. Names of points are "
                               "slanted. The plan "
                               "is drawn from the neighbours in the configuration. It is not to "
                               "scale."),
                     class_="small"))

    # -- the whole

    def heading(self):
        """Returns title, subject, verdict with answers, and table of contents."""
        subject = self.options.subject
        facts = [f"{name.capitalize()}: {subject[name]}" for name in ("project", "issue", "author")
                 if name in subject]
        if "title" in subject:
            facts.append(f"Configuration: {self.options.name}")
        self.verdict = verdict(self.answered, is_proved(self.options.program_file))
        return [tag("h1", text(self.title)),
                tag("p", text(" · ".join(facts)), class_="subject") if facts else "",
                self.verdict_line(),
                tag("ul", "".join(tag("li", line) for line in self.summary), class_="sum"),
                tag("nav", "".join(tag("a", text(title), href=f"#{id_}")
                                   for title, id_ in self.heads), class_="toc", aria_label="Contents")]

    def verdict_line(self):
        """Returns the verdict as a coloured line with a link to the hazard."""
        _, _, rest = self.verdict.line.partition(". ")
        link = tag("a", text("Show the "
                             "hazard"), href=f"#{HAZARD_ID}") if HAZARD_ID in self.ids else ""
        words = tag("b", text(self.verdict.word)) + text(rest) + (f" {link}" if link else "")
        return tag("p", words, class_=f"verdict {self.verdict.tone}", id=VERDICT_ID,
                   data_word=self.verdict.word)

    @property
    def title(self):
        """Returns the report's title."""
        return self.options.subject.get("title", self.options.name)

    def whole(self):
        """Returns the report as a document."""
        foot = ("The answers of <code>irv</code> are proved if the program is the proved build: "
                "the lines of "
                "check, verify, replay and drive, in blue or in a machine's letters beside its "
                "name. The "
                "pictures, the sentences, the search, the runs through the routes and what is "
                "marked in "
                "yellow are made by tools/html, which is not proved. <code>irv replay</code> "
                "answered each "
                "run that is drawn.")
        head = self.heading()
        return document(f"{self.title}: {self.verdict.word}, irv",
                        "\n".join(filter(None, [*head, *self.parts]))
                        + tag("p", foot, class_="foot small"))


def counts_words(plant: Plant) -> str:
    """Returns a plant's numbers in words."""
    return (f"{len(plant.sections)} sections, {len(plant.points)} of them with points; "
            f"{len(plant.boards)} boards; {len(plant.routes)} routes.")


def no_train_moves(plant):
    """Returns a sentence about a table without routes."""
    bare = [plant.name(x) for x, inward in plant.inward.items()
            if (x, inward) not in plant.board_on]
    if not bare:
        return ("The table has no routes, so no board opens. A train can enter, but it stops at "
                "the board of "
                "its border.")
    return ("The table has no routes, so no board opens. Only trains that enter at a border "
            "without a board "
            f"can move: {join(bare)}.")
