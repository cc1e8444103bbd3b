"""A random run of a crew. Its eagerness for each kind of event is chosen once. Then event follows
event until there is a hazard, nothing more is enabled, or the run is long enough.

No run to a hazard is lost because a turn may do several events. A route is marked just before it is
allocated: no other event asks whether it is marked. A thrown point settles at once: a train that
meets it moving could have come before the throw."""

from irvtools.search.single_train import Drive
from irvtools.model.bitset_events import ALLOCATING, DONE, FREE, HAZARD, LOCKED, REFUSED, Simulation

MOST_REFUSED = 12       # refused turns in a row before everything is tried


class Walk:
    """A random run over a plant."""

    def __init__(self, relations, chance, crew):
        self.chance, self.random, self.crew = chance, chance.random, crew
        self.facts, self.starts = relations.facts, relations.starts
        self.simulation = Simulation(self.facts)
        self.events = self.simulation.by_word()
        self.run = []
        self.busy = []          # allocated, unfinished routes
        self.awake = []         # trains that may move
        self.asked = []         # trains at a closed board that want a route
        self.from_board = {}    # crew's routes by source board
        for r in crew.routes:
            self.from_board.setdefault(self.facts.source[r], []).append(r)
        self.be_eager()

    def be_eager(self):
        """Chooses the eagerness for each kind of event."""
        pick = self.chance.choice
        trains, busy, points, new, enter = turns = (
            pick((3, 6, 12)), pick((3, 6)), pick((0.5, 2, 5)), pick((1, 3)), pick((0.3, 1)))
        scale = 1 / sum(turns)
        # Upper bounds of a random number for the kinds of turns.
        self.trains_to = trains * scale
        self.busy_to = self.trains_to + busy * scale
        self.points_to = self.busy_to + points * scale
        self.new_to = self.points_to + new * scale
        self.unasked = pick((0.0, 0.1, 0.3))            # to set a route without a waiting train
        self.feinting = pick((0.0, 0.1, 0.5))           # to cancel such a route at once
        self.cancelling = pick((0.0, 0.0, 0.02, 0.1, 0.3))
        self.tail_first = pick((0.1, 0.5, 0.9))
        self.tail_after = pick((0.05, 0.5, 1.0))        # if its head can't move
        self.leaving = pick((0.1, 0.5, 1.0))
        self.sensing = pick((0.1, 0.5, 1.0))
        self.brought = pick((0.0, 0.7, 1.0))            # share of trains driven to their places
        self.most_trains = pick((1, 2, 2, 3, 4))

    def to_hazard(self, most):
        """Returns the run if it ends in a hazard within `most` events after the approaches,
        otherwise `None`."""
        run, refused = self.run, 0
        if self.bring() == HAZARD:
            return run
        most += len(run)
        while len(run) < most:
            done = self.turn()
            if done == REFUSED:
                refused += 1
                if refused <= MOST_REFUSED:
                    continue
                done = self.any_turn()
                if done == REFUSED:
                    return None
            if done == HAZARD:
                return run
            refused = 0
        return None

    def bring(self):
        """Drives trains to their places one by one. Returns the last event's result."""
        for border, routes in self.shuffled(self.crew.approaches):
            if self.random() >= self.brought:
                continue
            drive = Drive(self.simulation, self.run)
            if drive.enter(border):
                for r in routes:
                    if not (drive.set(r) and drive.use(r)):
                        break
            if drive.done == HAZARD:
                return HAZARD
        self.busy = [r for r, mode in enumerate(self.simulation.mode) if mode != FREE]
        self.awake = list(self.simulation.trains)
        return DONE

    def turn(self):
        """Tries something. Returns the result."""
        what = self.random()
        if what < self.trains_to and self.awake:
            return self.move(self.one_of(self.awake))
        if what < self.busy_to and self.busy:
            return self.go_on(self.one_of(self.busy))
        if what < self.points_to and self.simulation.minus != self.simulation.to_minus:
            return self.throw()
        if what < self.new_to:
            if self.asked:
                return self.answer(self.one_of(self.asked))
            if self.crew.routes and self.random() < self.unasked:
                return self.set(self.one_of(self.crew.routes))
            return REFUSED
        if self.crew.borders and len(self.simulation.trains) < self.most_trains:
            return self.enter(self.one_of(self.crew.borders))
        return REFUSED

    def any_turn(self):
        """Tries everything, the likelier first, until something happens."""
        for train in self.shuffled(self.simulation.trains):
            for word, x in (("head", train[1][-1]), ("tail", train[1][0]), ("leave", train[1][0])):
                done = self.did(word, x)
                if done:
                    self.wake(train)
                    return done
        for r in self.shuffled(self.busy):
            if self.go_on(r, sure=True):
                return DONE
        done = self.throw()
        if done:
            return done
        wanted = [r for train in self.simulation.trains for r in self.before(train)]
        some = self.crew.routes if self.random() < self.unasked else []
        for r in self.shuffled(wanted) + self.shuffled(some):
            done = self.set(r)
            if done:
                return done
        if len(self.simulation.trains) < self.most_trains:
            for x in self.shuffled(self.crew.borders):
                if self.enter(x):
                    return DONE
        return REFUSED

    def one_of(self, things):
        """Returns a random thing."""
        return things[int(self.random() * len(things))]

    def shuffled(self, things):
        """Returns things in random order."""
        return self.chance.sample(things, len(things))

    def did(self, word, number):
        """Does and records an event. Returns the result."""
        done = self.events[word](number)
        if done:
            self.run.append((word, number))
        return done

    # -- trains

    def enter(self, x):
        """Lets a train enter."""
        done = self.did("enter", x)
        if done:
            self.awake.append(self.simulation.train_on[x])
        return done

    def move(self, train):
        """Moves a train's head or tail. If it can't move, it waits for a route."""
        body = train[1]
        is_long = len(body) > 1
        if is_long and self.random() < self.tail_first:
            return self.did("tail", body[0])
        done = self.did("head", body[-1])
        if done:
            return done
        if is_long:
            return self.did("tail", body[0]) if self.random() < self.tail_after else REFUSED
        if self.simulation.is_end(*train):
            if self.random() < self.leaving:
                self.awake.remove(train)
                return self.did("leave", body[0])
            return REFUSED
        self.awake.remove(train)
        self.asked.append(train)
        return REFUSED

    def wake(self, train):
        """Notes that a train may move again, if it still exists."""
        if train in self.asked:
            self.asked.remove(train)
        if train in self.simulation.trains:
            if train not in self.awake:
                self.awake.append(train)
        elif train in self.awake:
            self.awake.remove(train)

    # -- routes

    def before(self, train):
        """Returns the crew's routes that begin at a train's head."""
        return self.from_board.get(self.facts.board[train[0]][train[1][-1]], ())

    def answer(self, train):
        """Sets a route for a waiting train."""
        routes = self.before(train)
        return self.set(self.one_of(routes)) if routes else REFUSED

    def set(self, r):
        """Marks and allocates a route. If no train is before it, it may be cancelled at once."""
        simulation = self.simulation
        if simulation.mode[r] != FREE or not simulation.can_allocate(r):
            return REFUSED
        self.did("mark", r)
        self.did("allocate", r)
        if self.feinting and simulation.train_on[self.starts[self.facts.source[r]][0]] is None \
                and self.random() < self.feinting:
            return self.feint(r)
        self.busy.append(r)
        return DONE

    def feint(self, r):
        """Cancels an allocated route. Points may be thrown before."""
        if self.random() < 0.5:
            while self.simulation.minus != self.simulation.to_minus:
                if self.throw() == HAZARD:
                    return HAZARD
        return self.did("cancel", r)

    def go_on(self, r, sure=False):
        """Continues with a route."""
        mode = self.simulation.mode[r]
        if mode == ALLOCATING:
            return self.end_allocating(r)
        if mode == LOCKED and not sure and self.random() > self.sensing:
            return REFUSED
        done = self.did("sense", r) or self.did("release", r)
        if done:
            return done
        done = self.did("finish", r)
        if done:
            self.busy.remove(r)
        return done

    def end_allocating(self, r):
        """Locks a route, sometimes cancels it. A train before it may then move."""
        if self.cancelling and self.random() < self.cancelling:
            self.busy.remove(r)
            return self.did("cancel", r)
        done = self.did("lock", r)
        if done:
            train = self.simulation.train_on[self.starts[self.facts.source[r]][0]]
            if train is not None:
                self.wake(train)
        return done

    # -- points

    def throw(self):
        """Throws and settles a point that is not in its commanded position."""
        waiting = self.simulation.minus ^ self.simulation.to_minus
        if not waiting:
            return REFUSED
        least = int(self.random() * waiting.bit_length())
        some = waiting >> least << least
        x = (some & -some).bit_length() - 1
        done = self.did("throw", x)
        return done if done == HAZARD else self.did("settle", x)
