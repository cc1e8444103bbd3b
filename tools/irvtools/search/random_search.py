"""Searches randomly for runs from the initial state to a hazard. A found run is the page's own
until `irv replay` answers it."""

from __future__ import annotations

import random
import time
from typing import Iterable

from irvtools.rules import broken_rules
from irvtools.search.route_groups import Crew
from irvtools.search.route_relations import Relations
from irvtools.search.run_shortening import readable
from irvtools.model.bitset_events import Facts
from irvtools.model.plant import Plant
from irvtools.search.route_uses import is_use
from irvtools.search.random_run import Walk

MOST_EVENTS = 320
SHORTENING = 8.0        # most seconds to shorten a run
LOOK_ON = 400           # divided by the run's events: tries for a shorter one
MUCH_LONGER = 3         # longer runs by this factor aren't shortened
MORE = 400              # runs per additional route meeting the suspect
MOST_OTHERS = 4


def suspects_of(plant: Plant, broken: Iterable[tuple[str, list[tuple[str, int]]]]
                ) -> list[tuple[str, int]]:
    """Returns the routes and borders that break a column rule on which safety depends: a search
    starts there. `broken` has each rule with its places, as read by `rules.read_line`."""
    kinds = {"routes": "route", "sections": "border"}
    return [(kinds[places[0][0]], places[0][1]) for rule, places in broken
            if broken_rules.rests(plant, rule, places)]


class RandomSearch:
    """A search over a plant, determined by its seed. It starts at the `suspects`: route numbers, or
    pairs from `suspects_of`. If uses are kept, `used` has a run for each route that a run set, used
    and finished."""

    def __init__(self, plant, seed=1, suspects=(), keeps_uses=True):
        self.plant, self.keeps_uses = plant, keeps_uses
        self.random = random.Random(seed)
        self.facts = Facts(plant)
        self.relations = Relations(self.facts)
        self.suspects = [("route", one) if isinstance(one, int) else one
                         for one in suspects if one is not None]
        self.suspects += [one for one in self.relations.suspects if one not in self.suspects]
        self.runs = self.events = self.longest = 0
        self.used = {}

    def for_hazard(self, seconds, most_runs=None):
        """Searches for `seconds`. Returns a shortened run to a hazard, or `None`."""
        end = time.monotonic() + seconds
        while time.monotonic() < end and (most_runs is None or self.runs < most_runs):
            run = self.walk()
            if run is not None:
                return self.shorter(readable(self.facts, run, SHORTENING))
        return None

    def shorter(self, best):
        """Returns a run no longer than `best`. It makes further runs, more for a shorter `best`."""
        for _ in range(LOOK_ON // len(best)):
            run = self.walk()
            if run is not None and len(run) <= MUCH_LONGER * len(best):
                best = min(best, readable(self.facts, run, SHORTENING), key=len)
        return best

    def walk(self):
        """Makes one run. Returns it if it ends in a hazard."""
        others = min(MOST_OTHERS, 2 + self.runs // MORE)
        walk = Walk(self.relations, self.random,
                    Crew(self.relations, self.random, self.suspects, others))
        found = walk.to_hazard(MOST_EVENTS)
        self.runs += 1
        self.events += len(walk.run)
        self.longest = max(self.longest, len(walk.run))
        if self.keeps_uses:
            self.keep_uses(walk.run)
        return found

    def keep_uses(self, run):
        """Keeps a run for each route used for the first time."""
        for place, (word, number) in enumerate(run):
            if word == "finish" and number not in self.used \
                    and is_use(self.plant, run[:place + 1], number):
                self.used[number] = run[:place + 1]
