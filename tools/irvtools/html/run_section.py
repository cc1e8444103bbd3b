"""The caller's run or scenario, step by step up to its end, or to an event that isn't enabled, and
why."""

from __future__ import annotations

from typing import TYPE_CHECKING

from irvtools.model.disabled_events import unmet_words
from irvtools.model.events import apply, hazard
from irvtools.html.run_file import COMMANDS, bad_line, driven
from irvtools.html.markup import tag, text
from irvtools.html.run_frames import NOTE, RunView, trouble
from irvtools.model.plant import Plant
from irvtools.model.state import State, event_line
from irvtools.model.waiting import waiting
from irvtools.model.descriptions import counted, hazard_words

if TYPE_CHECKING:
    from irvtools.html.report import Report

ASK_SECONDS = 60        # for replay or drive
ANSWERED = (0, 1, 6)    # their statuses if they answer
MOST_DRAWN = 40000      # most frames times sections: if exceeded, only last events are drawn
MOST_EVENTS = 400       # drawn events


class GivenView(RunView):
    """Draws runs with notes at some frames: the note of each place."""

    notes = {}

    def frame(self, events, place, states, marks, answered):
        """Returns a frame with its note before it."""
        note = self.notes.get(place)
        before = tag("p", text(note), class_="note") if note else ""
        return before + super().frame(events, place, states, marks, answered)


def given_part(page: Report, columns: str) -> None:
    """Adds the run or scenario."""
    given = page.given_run
    page.head(f"{given.what.capitalize()} {given.name}", "given")
    page.progress.say(f"{given.what} {given.name}")
    answer = given.ask(page.program, columns, ASK_SECONDS)
    page.calls.append(answer)
    page.count(answer, columns, given.text)
    page.show(answer)
    view = GivenView(page, columns, "given")
    page.sum_up(f"{given.what.capitalize()} {given.name}", answer.said)
    word = answer.line.partition(" ")[0]
    if answer.line == "refused F1 extra":
        page.add(trouble(f"The {given.what} is longer than irv reads; docs/reference/commands.md "
                         f"has the "
                         "greatest lengths."))
    elif answer.status not in ANSWERED:
        page.add(trouble(f"This is no answer about the {given.what}, so it is not drawn."))
    elif word == "rejected":
        rejected_part(page, view, int(answer.line.split(" ")[2]))
    elif given.kind == "run":
        run_part(page, view, answer)
    else:
        drive_part(page, view, answer)


def add_to_summary(page, words):
    """Adds words to the last line below the verdict."""
    page.said[-1] += words
    page.summary[-1] += text(words)


def rejected_part(page, view, number):
    """Adds a text that is neither run nor scenario, up to its first bad line."""
    given, plant = page.given_run, page.plant
    why = bad_line(given, plant, number)
    page.add(tag("p", tag("b", text(why), class_="bad")))
    add_to_summary(page, f". {why}")
    read = given.read(plant, number) if given.kind == "run" else None
    if read is not None and read[1]:
        page.own("The events before that line are drawn.")
        draw(page, view, *read)


def run_part(page, view, answer):
    """Adds a run, up to a hazard, its end, or an event that isn't enabled."""
    plant = page.plant
    first, events = page.given_run.read(plant)
    place, reached = first_refused(plant, first, events)
    own = view.own(reached) if place is None else f"not a run at {place}"
    if answer.line != own:
        page.add(trouble(f"The page stops here. irv replay answers “{answer.line}”, but the page's "
                         f"own "
                         f"model says “{own}”."))
        return
    if place is not None:
        refused_event(page, reached, events, place)
    draw(page, view, first, events if place is None else events[:place - 1])


def first_refused(plant: Plant, first: State | None,
                  events: list[tuple[str, int]]) -> tuple[int | None, State]:
    """Returns the number, from 1, of the first event that isn't enabled or comes after a hazard, or
    `None`; and the state before it, or the last one."""
    state = State(plant) if first is None else first.copy()
    for place, event in enumerate(events, 1):
        if hazard(plant, state) or not apply(plant, state, event):
            return place, state
    return None, state


def refused_event(page, state, events, place):
    """Adds why an event of a run isn't enabled."""
    line = event_line(page.plant, events[place - 1])
    at = hazard(page.plant, state)
    if at:
        why = f"the run has already ended in a hazard. {hazard_words(page.plant, at)}"
    else:
        why = f"{unmet_words(page.plant, state, events[place - 1])}."
    sentence = f"Event {place}, {line}, is not enabled: {why}"
    page.add(tag("p", tag("b", text(sentence), class_="bad"), class_="own"))
    add_to_summary(page, f". {sentence}")


def drive_part(page, view, answer):
    """Adds a scenario: each command when it acts, and its effects."""
    plant = page.plant
    events = driven(plant, answer.output)
    commands = [place for place, (word, _) in enumerate(events, 1) if word in COMMANDS]
    count = len(page.given_run.lines) - 3       # without first line, end and rest
    view.notes = {place: f"Command {number} of {count}: {event_line(plant, events[place - 1])}"
                  for number, place in enumerate(commands, 1)}
    page.add(tag("p", text(f"{len(commands)} of {counted(count, 'command')} acted; "
                           f"{counted(len(events) - len(commands), 'event')} came from the "
                           f"interlocking and "
                           "the trains. Each command is shown at the event at which it acts.")))
    _, state = first_refused(plant, None, events)
    if answer.line.startswith("stuck "):
        stuck_part(page, state, int(answer.line.split(" ")[2]), count)
    draw(page, view, None, events)


def stuck_part(page, state, number, count):
    """Adds the simulation's deadlock, and what waits for what."""
    plant = page.plant
    if number <= count:
        line = page.given_run.lines[number]
        word, name = line.split(" ")
        event = word, (plant.section_named if word == "enter" else plant.route_named)[name]
        demands = unmet_words(plant, state, event)
        sentence = (f"The scenario is stuck at command {number}, {line}, which is not enabled: "
                    f"{demands}.")
    else:
        sentence = ("All commands acted, but the scenario does not end: no event is left that the "
                    "interlocking "
                    "or a train does by itself.")
    page.add(tag("p", tag("b", text(sentence), class_="bad"), class_="own"))
    sentences = waiting(plant, state)
    page.own("What waits for what in that state, by the page's own reading:")
    page.add(tag("ul", "".join(tag("li", text(one)) for one in sentences)))
    add_to_summary(page, f". {sentence}")


def draw(page, view, first, events):
    """Adds the frames of a run, or of a long run's last events."""
    plant = page.plant
    most = max(20, min(MOST_EVENTS, MOST_DRAWN // max(1, len(plant.sections))))
    left_out = max(0, len(events) - most)
    if left_out:
        _, first = first_refused(plant, first, events[:left_out])
        events = events[left_out:]
        view.notes = {place - left_out: note for place, note in view.notes.items()
                      if place > left_out}
        page.own(f"Left out: the frames of the first {left_out} events. The first state drawn is "
                 f"the one "
                 "after them, and the events are counted from there.")
    page.add(tag("p", text(NOTE), class_="small lead"), view.frames(events, first))
