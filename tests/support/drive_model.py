"""An independent implementation of `irv drive --columns free`, with the event model of
`irvtools.model`."""

from irvtools.model.events import EVENTS, hazard
from irvtools.model.plant import Plant
from irvtools.model.state import ROUTE_WORDS, State, read_event, run_text

AUTOMATIC = ("allocate", "lock", "sense", "release", "finish", "throw", "settle", "head", "tail", "leave")
DRIVEN, HAZARD, STUCK = "driven", "hazard", "stuck"
STATUS_OF = {DRIVEN: 0, HAZARD: 1, STUCK: 6}


def by_itself(plant, state):
    """Does the first enabled automatic event and returns it, or `None` if there is none."""
    for word in AUTOMATIC:
        numbers = range(len(plant.routes if word in ROUTE_WORDS else plant.sections))
        for number in numbers:
            if EVENTS[word](plant, state, number):
                return word, number
    return None


def drive(plant, commands):
    """Returns a drive's events, the kind of its end and the words for it."""
    state, done, at = State(plant), [], 0
    while True:
        found = hazard(plant, state)
        if found:
            return done, HAZARD, f"hazard {found[0]} {plant.name(found[1])}"
        event = by_itself(plant, state)
        if event is None and at < len(commands):
            word, number = commands[at]
            if EVENTS[word](plant, state, number):
                event, at = commands[at], at + 1
        if event is None:
            if at == len(commands) and not state.trains and all(mode == "free" for mode in state.mode):
                return done, DRIVEN, DRIVEN
            return done, STUCK, f"stuck at {at + 1}"
        done.append(event)


def answer(document, lines):
    """Returns the kind of end and drive's whole answer to these commands."""
    plant = Plant(document)
    events, kind, words = drive(plant, [read_event(plant, line) for line in lines])
    return kind, f"{words} steps={len(events)}\n{run_text(plant, events)}"


def scene(lines):
    """Returns the text of a scenario of these commands."""
    return "".join(f"{line}\n" for line in ["drive 1", *lines, "end"])
