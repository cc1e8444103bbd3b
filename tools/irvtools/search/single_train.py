"""Drives one train through route after route: each is locked, used, and released behind it.

The search brings its trains to their places this way, and the report finds the routes that a train
can use."""

from irvtools.model.bitset_events import DONE

MOST_HEADS = 300        # sections that a train passes without a stop


class Drive:
    """A train driven in a simulation. `run` takes the events; `done` is the last result. Nothing
    more is done after REFUSED or HAZARD."""

    def __init__(self, simulation, run):
        self.simulation, self.run = simulation, run
        self.train, self.done = None, DONE

    def copy(self):
        other = Drive(self.simulation.copy(), list(self.run))
        other.train, other.done = other.simulation.train_on[self.train[1][-1]], self.done
        return other

    @property
    def is_good(self):
        """Returns whether everything was done without a hazard."""
        return self.done == DONE

    @property
    def board(self):
        """Returns the board at which the train waits, or -1."""
        way, body = self.train
        return self.simulation.facts.board[way][body[-1]]

    def do(self, word, number):
        """Does an event if all before it were done. Returns whether the drive may continue."""
        if self.done == DONE:
            self.done = getattr(self.simulation, word)(number)
            if self.done:
                self.run.append((word, number))
        return self.done == DONE

    def enter(self, x):
        """Lets the train enter at a border and run to a board."""
        if self.do("enter", x):
            self.train = self.simulation.train_on[x]
            self.roll()
        return self.is_good

    def roll(self):
        """Runs the train to the next board or the network's end."""
        for _ in range(MOST_HEADS):
            x = self.train[1][-1]
            if self.board >= 0 or self.simulation.is_end(*self.train):
                break
            if not (self.do("head", x) and self.do("tail", x)):
                break

    def set(self, r):
        """Marks, allocates and locks a route, and throws its points."""
        self.do("mark", r)
        self.do("allocate", r)
        waiting = self.simulation.minus ^ self.simulation.to_minus
        while self.is_good and waiting:
            x = (waiting & -waiting).bit_length() - 1
            waiting &= waiting - 1
            self.do("throw", x)
            self.do("settle", x)
        return self.do("lock", r)

    def use(self, r):
        """Uses a locked route, which is released behind the train."""
        body = self.train[1]
        path = self.simulation.facts.path[r]
        for x in path:
            if not (self.do("head", body[-1]) and self.do("sense", r) and body[-1] == x
                    and self.do("tail", body[0])):
                return False
        for _ in path[1:]:
            self.do("release", r)
        return self.do("finish", r)
