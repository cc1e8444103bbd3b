"""Random runs and states, to compare the page's event models with each other and with `irv replay`."""

from irvtools.model import events
from irvtools.search.route_groups import Crew
from irvtools.search.route_relations import Relations
from irvtools.model.bitset_events import Facts
from irvtools.model.state import ROUTE_WORDS, State
from irvtools.search.random_run import Walk


def a_walk(plant, chance):
    """Returns a run of the random search, up to its first hazard."""
    relations = Relations(Facts(plant))
    walk = Walk(relations, chance, Crew(relations, chance, relations.suspects, 3))
    walk.to_hazard(chance.randint(1, 90))
    return walk.run


def a_run(plant, chance):
    """Returns a part of such a run that the drawing model accepts, and its last state."""
    walk, run, state = a_walk(plant, chance), [], State(plant)
    for event in walk[:chance.randint(0, len(walk))] if chance.random() < 0.5 else walk:
        if not events.apply(plant, state, event):
            break
        run.append(event)
    return run, state


def all_events(plant):
    """Returns every event that a run text may have."""
    things = {word: range(len(plant.sections)) for word in events.EVENTS}
    things.update({word: range(len(plant.routes)) for word in ROUTE_WORDS})
    things.update({word: plant.points for word in ("throw", "settle")})
    return [(word, number) for word, numbers in things.items() for number in numbers]


def is_enabled(plant, state, event):
    """Returns whether the model enables an event."""
    return events.hazard(plant, state) is None and events.apply(plant, state.copy(), event)


def wandered(plant, state, chance, most):
    """Returns a run of at most `most` events from a state, and its last state. Each kind of enabled
    event is equally likely."""
    state, run, known = state.copy(), [], all_events(plant)
    while len(run) < most:
        enabled = [event for event in known if is_enabled(plant, state, event)]
        if not enabled:
            break
        word = chance.choice(sorted({event[0] for event in enabled}))
        run.append(chance.choice([event for event in enabled if event[0] == word]))
        events.apply(plant, state, run[-1])
    return run, state


def muddled(plant, state, chance):
    """Returns a well-formed state with random changes, which need not be reachable."""
    state = state.copy()
    for r, route in enumerate(plant.routes):
        if chance.random() < 0.3:
            state.mode[r] = chance.choice(("free", "marked", "allocating", "locked", "occupied"))
            state.seen[r] = chance.randint(0, len(route.path))
            state.rel[r] = chance.randint(0, len(route.path))
    for x in range(len(plant.sections)):
        if chance.random() < 0.2:
            state.lock[x] = chance.choice(("free", "locked", "used"))
    for x in plant.points:
        if chance.random() < 0.4:
            state.at[x], state.to[x] = chance.choice(("plus", "minus", "moving")), chance.choice(
                ("plus", "minus"))
    for b in range(len(plant.boards)):
        if chance.random() < 0.3:
            state.aspect[b] = chance.choice(("open", "closed"))
    for _ in range(chance.randint(0, 2)):
        direction = chance.choice(("up", "down"))
        body = [chance.randrange(len(plant.sections))]
        while chance.random() < 0.6 and plant.nexts[body[-1], direction]:
            body.append(chance.choice(plant.nexts[body[-1], direction]))
        state.add_train(direction, body)
    return state
