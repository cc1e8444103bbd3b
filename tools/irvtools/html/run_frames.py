"""A run in the plan, with a frame for each event.

`irv replay` answers each drawn prefix, and the rest of the run from each drawn state. If the page's
own states disagree, the run ends there, and the page says so. The last frame comes first. An event
that moves no train and opens no board has a folded frame."""

from __future__ import annotations

import time
from concurrent.futures import ThreadPoolExecutor

from irvtools.calls.program import replay_line
from irvtools.model.events import hazard
from irvtools.model.events import replayed as states_of
from irvtools.html.markup import tag, text
from irvtools.trackplan.marks import Marks
from irvtools.model.state import event_line, run_text
from irvtools.model.descriptions import event_words, hazard_words, state_words
from irvtools.model.train_numbers import numbered

MOST_SECONDS = 12       # for the answers about one run
AT_ONCE = 4             # calls
MOVING = ("enter", "head", "tail", "leave", "lock")     # events whose frames are not folded
ON_PAPER = ("enter", "head", "lock")    # events with a picture on paper, like the last of a run
MOST_PICTURED = 10
HAZARD_ID = "hazard"    # the page's first hazard
NOTE = ("The signs are explained below the track plan. Marked in yellow is what an event is about. "
        "Events "
        "that move no train and open no board are folded: a click opens their plan. On paper only "
        "the last "
        f"{MOST_PICTURED} events by which a train enters or moves on or a board opens have a "
        f"picture, and the "
        "last event.")


class RunView:
    """Draws runs over a plant, with a program's answers under some columns. Frame ids begin with
    `name`; `page_ids` has earlier ids of the page."""

    def __init__(self, page, columns, name):
        self.program, self.columns, self.name = page.program, columns, name
        self.plant, self.drawing, self.page_ids = page.plant, page.drawing, page.ids

    def answer(self, events, state=None):
        """Returns replay's answer to a run."""
        return self.program.replay(self.columns, run_text(self.plant, events, state)).said

    def own(self, state):
        """Returns the page's own answer to a run that ends in `state`."""
        return replay_line(self.plant, hazard(self.plant, state))

    def asked(self, place, events, states, first):
        """Returns replay's answer to a prefix of a run, and any disagreement with it."""
        said, own = self.answer(events[:place], first), self.own(states[place])
        if said != own:
            return said, (f"irv replay answers “{said}” for the run up to here, but the page's own "
                          f"model "
                          f"says “{own}”.")
        rest, last = self.answer(events[place:], states[place]), self.own(states[-1])
        if rest != last:
            return said, (f"irv replay answers “{rest}” for the rest of the run from the drawn "
                          f"state, but "
                          f"the page's own model says “{last}”.")
        return said, None

    def all_asked(self, events, states, first):
        """Returns replay's answers by place, last place first, as many as time allows."""
        places = [len(events), *range(len(events))]
        answers, end = {}, time.monotonic() + MOST_SECONDS
        with ThreadPoolExecutor(AT_ONCE) as pool:
            while places and time.monotonic() < end:
                some, places = places[:AT_ONCE], places[AT_ONCE:]
                answers.update(zip(some, pool.map(
                    lambda place: self.asked(place, events, states, first), some)))
        return answers

    def frames(self, events, first=None, marks_at_end=None, after_end=""):
        """Returns the frames of a run, from a state or the initial one: the last frame, then the
        steps to it. The last frame may have its own marks and markup after it."""
        states = states_of(self.plant, events, first)
        if states is None:
            return trouble("The page's own model does not accept these events as a run, so they "
                           "are not "
                           "drawn.")
        answers, shown = self.all_asked(events, states, first), {}
        numbers, fault = numbered(states, events), None
        for place in filter(answers.__contains__, range(len(states))):
            said, fault = answers[place]
            if fault:
                break
            is_last = place == len(states) - 1
            marks = marks_at_end if is_last and marks_at_end else self.marks(events, place, states)
            shown[place] = self.frame(events, place, states, marks, (said, numbers[place])) \
                + (after_end if is_last else "")
        tail = trouble(f"The page stops here. {fault}") if fault else ""
        if not fault and len(answers) < len(states):
            tail = trouble(f"Left out, because there was no time: {len(states) - len(answers)} of "
                           f"{len(states)} frames, before the last one.")
        return self.arranged(shown, events, tail)

    def arranged(self, shown, events, tail):
        """Returns the frames in page order, the last first. Folded frames are with the next
        picture."""
        last = shown.pop(len(events), None)
        parts = [tag("div", last, class_="last")] if last else []
        if shown:
            links = "".join(tag("a", str(place), href=f"#{self.frame_id(place)}") + " "
                            for place in shown if not is_folded(events, place))
            parts.append(tag("p", text("Steps: ") + links, class_="steps small") if links else "")
        steps, step = [], ""
        for place, frame in shown.items():
            step += frame
            if not is_folded(events, place):
                steps.append(tag("div", step, class_="step"))
                step = ""
        steps += [tag("div", step, class_="step")] if step else []
        parts.append(self.drawing.beside("".join(steps) + tail) if steps or tail else "")
        return "".join(parts)

    def marks(self, events, place, states):
        """Returns marks for an event, and for the hazard after it."""
        at = hazard(self.plant, states[place])
        where = at[1] if at else None
        if not place:
            return Marks([where], hazard=where)
        word, number = events[place - 1]
        if word in ("mark", "allocate", "cancel"):
            route = self.plant.routes[number]
            return Marks([], [route.source]).with_route(route)
        if word == "lock":
            return Marks([], [self.plant.routes[number].source])
        if word == "sense":
            section = self.plant.routes[number].path[states[place - 1].seen[number]]
        elif word == "release":
            section = self.plant.routes[number].path[states[place - 1].rel[number]]
        elif word == "finish":
            section = self.plant.routes[number].path[-1]
        else:
            section = number
        return Marks([section, where], hazard=where)

    def frame_id(self, place):
        """Returns a frame's id."""
        return f"{self.name}-{place}"

    def hazard_link(self):
        """Returns the link target for the page's first hazard."""
        if HAZARD_ID in self.page_ids:
            return ""
        self.page_ids.add(HAZARD_ID)
        return tag("span", id=HAZARD_ID)

    def frame(self, events, place, states, marks, answered):
        """Returns a frame: event, effect, elements in use, replay's answer, and plan. `answered` is
        replay's answer with the train numbers."""
        plant, state = self.plant, states[place]
        said, numbers = answered
        if place:
            title = f"{place}. {event_line(plant, events[place - 1])}"
            what = event_words(plant, states[place - 1], events[place - 1], state)
        else:
            title, what = "The first state", ""
        words = [tag("span", text(title), class_="what"), text(what)]
        at = hazard(plant, state)
        if at:
            words.append(tag("b", text(hazard_words(plant, at)), class_="bad"))
        head = (self.hazard_link() if at else "") + " ".join(words)
        small = " · ".join(filter(None, [text(state_words(plant, state)),
                                         f"irv replay: <code>{text(said)}</code>"]))
        body = tag("p", small, class_="small") + self.drawing.frame(state, marks, title, numbers)
        if is_folded(events, place):
            return tag("details", tag("summary", head) + body, class_="frame minor",
                       id=self.frame_id(place))
        is_printed = place == len(events) or place in pictured(events)
        return tag("div", tag("p", head) + body, id=self.frame_id(place),
                   class_="frame" if is_printed else "frame paperless")


def is_folded(events, place):
    """Returns whether the frame after `place` events is folded."""
    if place == len(events):
        return False
    return place == 0 or events[place - 1][0] not in MOVING


def pictured(events):
    """Returns the places of a run's events with a picture on paper, except its last."""
    found = [place for place, (word, _) in enumerate(events[:-1], 1) if word in ON_PAPER]
    return found[-MOST_PICTURED:]


def trouble(words: str) -> str:
    """Returns a sentence that says why the page can't go on."""
    return tag("p", text(words), class_="own bad")
