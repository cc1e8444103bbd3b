"""Shortens a run to a hazard until no single event can be left out, and makes it easier to follow.

Events that aren't enabled without a removed one are removed too. Longer pieces are tried first,
which removes whole route uses and train movements; single events come last. At the end each train
gets events for its rear, so that its length is credible."""

from __future__ import annotations

import time

from irvtools.model.bitset_events import Facts, Simulation, to_hazard

PIECES = (16, 8, 4, 2, 1)       # events in a row


def shorter_by_pieces(facts, run, size, until):
    """Returns a run without its removable pieces of `size` events."""
    before, place = Simulation(facts), 0
    while place + size <= len(run) and time.monotonic() < until:
        trial = to_hazard(before.copy(), run[place + size:])
        if trial is not None:
            run = run[:place] + trial
        else:
            before.by_word()[run[place][0]](run[place][1])
            place += 1
    return run


def shortened(facts, run, until):
    """Returns a run to a hazard without needless events, as far as time allows."""
    length = None
    while length != len(run) and time.monotonic() < until:
        length = len(run)
        for size in PIECES:
            run = shorter_by_pieces(facts, run, size, until)
    return run


def in_order(facts, run):
    """Returns the same events in an easier order. If it makes no difference, a route is requested
    just before it is allocated, and a train enters just before it moves."""
    for place in reversed(range(len(run))):
        word, number = run[place]
        if word not in ("mark", "enter"):
            continue
        follower = ("allocate" if word == "mark" else "head", number)
        for later in range(place + 1, len(run)):
            if run[later] == follower:
                trial = run[:place] + run[place + 1:later] + [run[place]] + run[later:]
                if to_hazard(Simulation(facts), trial) == trial:
                    run = trial
                break
    return run


def with_rears(facts, run):
    """Returns a run to a hazard in which each train's rear follows as early as possible. Earlier
    rear movements are replaced."""
    fewer = [event for event in run if event[0] != "tail"]
    if to_hazard(Simulation(facts), fewer) == fewer:
        run = fewer
    before, place = Simulation(facts), 0
    while place < len(run):
        trial = with_rear(facts, before, run, place)
        run = trial or run
        before.by_word()[run[place][0]](run[place][1])
        place += 1
    return run


def with_rear(facts, before, run, place):
    """Returns a run with an additional event at `place`: a train's rear leaves a section. Returns
    `None` if no train can do that. `before` is the state there."""
    for _, body in before.trains:
        trial = [*run[:place], ("tail", body[0]), *run[place:]]
        if len(body) > 1 and to_hazard(Simulation(facts), trial) == trial:
            return trial
    return None


def readable(facts: Facts, run: list[tuple[str, int]], seconds: float) -> list[tuple[str, int]]:
    """Returns a short run in order. It is shortened again after each change of order, until nothing
    changes or time is over. Rears are added last."""
    until, last = time.monotonic() + seconds, None
    while run != last and time.monotonic() < until:
        last, run = run, in_order(facts, shortened(facts, run, until))
    return with_rears(facts, run)
