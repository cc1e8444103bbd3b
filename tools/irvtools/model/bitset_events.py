"""The thirteen events over bit sets: an event's cost depends on what it touches, not on the plant.

The search makes its runs with it. It has the same events as `events.py`, which draws the page. The
tests compare the two event by event; `events.py` and `irv` replay each found run."""

from __future__ import annotations

FREE, MARKED, ALLOCATING, LOCKED, OCCUPIED = range(5)
REFUSED, DONE, HAZARD = range(3)        # results of an event

SIDES = ("down", "up")
NOTHING, AT_A_POINT = -1, -2            # ahead of a section: no section; depends on the position of points


def bits(numbers):
    """Returns a set of numbers as the bits of a number."""
    result = 0
    for number in numbers:
        result |= 1 << number
    return result


class Facts:
    """A plant's facts for events: routes, boards and sections. A direction is a number, 1 for up;
    sets are bits."""

    def __init__(self, plant):
        routes, boards = plant.routes, plant.boards
        self.plant = plant
        self.path = [route.path for route in routes]
        self.source = [route.source for route in routes]
        self.sections = [bits(route.locked) for route in routes]
        self.last = [bits((route.path[-1], *route.beside)) if route.path else 0
                     for route in routes]
        self.points = [bits(x for x, _ in route.wanted) for route in routes]
        self.minus = [bits(x for x, position in route.wanted if position == "minus")
                      for route in routes]
        self.conflicts = [bits(route.conflicts) for route in routes]
        self.protecting = [bits(route.protecting_boards) for route in routes]
        # for each board: the routes that it protects
        self.protected = [bits(r for r, route in enumerate(routes) if b in route.protecting_boards)
                          for b in range(len(boards))]
        self.all_points = bits(plant.points)
        self.inward = {x: SIDES.index(side) for x, side in plant.inward.items()}
        numbers = range(len(plant.sections))
        self.board = [[plant.board_on.get((x, side), NOTHING) for x in numbers] for side in SIDES]
        self.ahead = [[self.ahead_of(section, side) for section in plant.sections] for side in SIDES]
        self.legs = [(section.neighbours.get("plus"), section.neighbours.get("minus"))
                     for section in plant.sections]
        # for a way onto points from a leg: 1 if the leg is minus
        self.from_leg = {(leg, x): number for x in plant.points
                         for number, leg in enumerate(self.legs[x])}

    def ahead_of(self, section, side):
        """Returns the section ahead in a direction, if it never changes."""
        if section.is_point and section.faces == side:
            return AT_A_POINT
        to = section.neighbours.get("stem" if section.is_point else side)
        return NOTHING if to is None else to


class Simulation:
    """A state that events change. An event answers REFUSED and changes nothing, or DONE, or HAZARD,
    which is final."""

    __slots__ = ("facts", "mode", "seen", "rel", "claimed", "locked_routes", "held", "used",
                 "occupied", "minus", "moving", "to_minus", "open", "trains", "train_on", "hazard_at")

    def __init__(self, facts):
        """Begins in the initial state."""
        count = len(facts.path)
        self.facts = facts
        self.mode, self.seen, self.rel = [FREE] * count, [0] * count, [0] * count
        self.claimed = self.locked_routes = 0       # routes Allocating or Locked; Locked
        self.held = self.used = 0                   # sections with a lock that is not free; used
        self.occupied = 0                           # sections
        self.minus = self.moving = self.to_minus = 0        # points in this position; commanded so
        self.open = 0                               # boards
        self.trains = []                            # each with direction and body
        self.train_on = [None] * len(facts.legs)
        self.hazard_at = None                       # word and section

    def copy(self):
        other = Simulation.__new__(Simulation)
        for part in Simulation.__slots__:
            value = getattr(self, part)
            setattr(other, part, value[:] if isinstance(value, list) else value)
        other.trains = [(way, body[:]) for way, body in self.trains]
        other.train_on = [None] * len(self.train_on)
        for train in other.trains:
            for x in train[1]:
                other.train_on[x] = train
        return other

    def is_end(self, way, body):
        """Returns whether the network ends at a train's front."""
        return self.facts.ahead[way][body[-1]] == NOTHING

    # -- routes

    def mark(self, r):
        """Requests a route."""
        if self.mode[r] != FREE:
            return REFUSED
        self.mode[r] = MARKED
        return DONE

    def can_allocate(self, r):
        """Returns whether only its mode can keep a route from being allocated."""
        facts = self.facts
        return not (self.claimed & facts.conflicts[r]
                    or (self.held | self.occupied) & facts.sections[r])

    def allocate(self, r):
        """Locks the sections of a route and commands its points."""
        facts = self.facts
        if self.mode[r] != MARKED or self.claimed & facts.conflicts[r] \
                or (self.held | self.occupied) & facts.sections[r]:
            return REFUSED
        self.mode[r] = ALLOCATING
        self.claimed |= 1 << r
        self.held |= facts.sections[r]
        self.to_minus = self.to_minus & ~facts.points[r] | facts.minus[r]
        return DONE

    def lock(self, r):
        """Opens the entry board of a route with points in position."""
        facts = self.facts
        points, source = facts.points[r], facts.source[r]
        if self.mode[r] != ALLOCATING or self.moving & points \
                or self.minus & points != facts.minus[r] or self.open & facts.protecting[r] \
                or self.locked_routes & facts.protected[source]:
            return REFUSED
        self.mode[r] = LOCKED
        self.locked_routes |= 1 << r
        self.open |= 1 << source
        return DONE

    def sense(self, r):
        """Detects the next section of a route's path as occupied."""
        mode, seen, path = self.mode[r], self.seen[r], self.facts.path[r]
        if mode < LOCKED or seen >= len(path):
            return REFUSED
        bit = 1 << path[seen]
        if not self.occupied & bit or not self.held & bit or self.used & bit:
            return REFUSED
        self.used |= bit
        if seen == 0:
            self.open &= ~(1 << self.facts.source[r])
        if mode == LOCKED:
            self.mode[r] = OCCUPIED
            self.claimed &= ~(1 << r)
            self.locked_routes &= ~(1 << r)
        self.seen[r] = seen + 1
        return DONE

    def release(self, r):
        """Releases the first locked section of a path behind the train."""
        rel = self.rel[r]
        if self.mode[r] != OCCUPIED or rel + 2 > self.seen[r]:
            return REFUSED
        bit = 1 << self.facts.path[r][rel]
        if self.occupied & bit or not self.used & bit:
            return REFUSED
        self.held &= ~bit
        self.used &= ~bit
        self.rel[r] = rel + 1
        return DONE

    def finish(self, r):
        """Releases all that a used route still holds."""
        length = len(self.facts.path[r])
        if self.mode[r] != OCCUPIED or self.seen[r] != length or self.rel[r] + 1 != length:
            return REFUSED
        self.held &= ~self.facts.last[r]
        self.used &= ~self.facts.last[r]
        self.mode[r], self.seen[r], self.rel[r] = FREE, 0, 0
        return DONE

    def cancel(self, r):
        """Cancels a route that is not locked yet."""
        if self.mode[r] == ALLOCATING:
            sections = self.facts.sections[r]
            self.held &= ~sections
            self.used &= ~sections
            self.claimed &= ~(1 << r)
        elif self.mode[r] != MARKED:
            return REFUSED
        self.mode[r] = FREE
        return DONE

    # -- points

    def throw(self, x):
        """Starts points moving to their commanded position."""
        bit = 1 << x
        if self.moving & bit or not (self.minus ^ self.to_minus) & bit:
            return REFUSED
        self.moving |= bit
        if self.occupied & bit:
            self.hazard_at = "wrong", x
            return HAZARD
        return DONE

    def settle(self, x):
        """Ends the movement of points."""
        bit = 1 << x
        if not self.moving & bit:
            return REFUSED
        self.moving &= ~bit
        self.minus = self.minus & ~bit | self.to_minus & bit
        return DONE

    # -- trains

    def enter(self, x):
        """Lets a train enter at a border."""
        bit = 1 << x
        if x not in self.facts.inward or (self.occupied | self.held) & bit:
            return REFUSED
        train = (self.facts.inward[x], [x])
        self.trains.append(train)
        self.train_on[x] = train
        self.occupied |= bit
        return DONE

    def head(self, x):
        """Moves a train's front to the section ahead."""
        train = self.train_on[x]
        if train is None or train[1][-1] != x:
            return REFUSED
        facts, way = self.facts, train[0]
        board = facts.board[way][x]
        if board >= 0 and not self.open >> board & 1:
            return REFUSED
        to = facts.ahead[way][x]
        if to < 0:
            if to == NOTHING or self.moving >> x & 1:
                return REFUSED
            to = facts.legs[x][self.minus >> x & 1]
        if board >= 0:
            self.open &= ~(1 << board)
        train[1].append(to)
        bit = 1 << to
        if self.occupied & bit:
            self.hazard_at = "two", to
            return HAZARD
        self.occupied |= bit
        self.train_on[to] = train
        if facts.all_points & bit:
            lies = self.minus >> to & 1
            if self.moving & bit or facts.from_leg.get((x, to), lies) != lies:
                self.hazard_at = "wrong", to
                return HAZARD
        return DONE

    def tail(self, x):
        """Moves a train's rear out of its section."""
        train = self.train_on[x]
        if train is None or train[1][0] != x or len(train[1]) < 2:
            return REFUSED
        del train[1][0]
        self.train_on[x] = None
        self.occupied &= ~(1 << x)
        return DONE

    def leave(self, x):
        """Lets a train leave the network."""
        train = self.train_on[x]
        if train is None or len(train[1]) > 1 or self.facts.ahead[train[0]][x] != NOTHING:
            return REFUSED
        self.trains.remove(train)
        self.train_on[x] = None
        self.occupied &= ~(1 << x)
        return DONE

    def by_word(self):
        """Returns the events by their words."""
        return {word: getattr(self, word) for word in (
            "mark", "allocate", "lock", "sense", "release", "finish", "cancel", "throw", "settle",
            "enter", "head", "tail", "leave")}


def to_hazard(simulation: Simulation,
              events: list[tuple[str, int]]) -> list[tuple[str, int]] | None:
    """Returns those of some events that are enabled in turn, up to a hazard; `None` without a
    hazard."""
    run, do = [], simulation.by_word()
    for event in events:
        done = do[event[0]](event[1])
        if done:
            run.append(event)
            if done == HAZARD:
                return run
    return None
