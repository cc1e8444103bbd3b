"""Related routes, which a search picks together.

The tracks, not the table, say how far a train runs from a board, since the table may be wrong. It
runs over every leg of a point, up to the next boards."""

from irvtools.model.bitset_events import AT_A_POINT, NOTHING

FAR = 1 << 20


class Relations:
    """For each route: the sections that its train may reach, the routes that bring a train to its
    source, and the routes that meet it."""

    def __init__(self, facts):
        self.facts = facts
        plant, count = facts.plant, len(facts.path)
        self.starts = [(board.section, int(board.direction == "up")) for board in plant.boards]
        reached = [self.reached(self.ahead(x, way), way) for x, way in self.starts]
        self.after_border = {x: self.reached([x], way) for x, way in facts.inward.items()}
        self.from_board = [[r for r in range(count) if facts.source[r] == b]
                           for b in range(len(plant.boards))]
        # For each board, the borders and boards from which a train runs to it.
        self.borders = [[x for x, found in self.after_border.items()
                         if facts.inward[x] == way and found >> at & 1] for at, way in self.starts]
        self.boards = [[a for a, found in enumerate(reached)
                        if self.starts[a][1] == way and found >> at & 1 and self.from_board[a]]
                       for at, way in self.starts]
        self.distance = self.distances()
        # For each route, all that its train and its locks touch.
        self.touched = [reached[facts.source[r]] | facts.sections[r] for r in range(count)]
        self.met = [self.that_meet(sections, {r}) for r, sections in enumerate(self.touched)]
        self.met_at_border = {x: self.that_meet(found, set())
                              for x, found in self.after_border.items()}
        self.followers = [[s for s in range(count)
                           if reached[facts.source[r]] >> self.starts[facts.source[s]][0] & 1
                           and self.starts[facts.source[s]][1] == self.starts[facts.source[r]][1]]
                          for r in range(count)]
        # A search starts at borders without a board: trains enter freely there.
        self.suspects = [("border", x) for x, way in facts.inward.items()
                         if facts.board[way][x] < 0]

    def ahead(self, x, way):
        """Returns the sections that may be ahead of one."""
        to = self.facts.ahead[way][x]
        return self.facts.legs[x] if to == AT_A_POINT else () if to == NOTHING else (to,)

    def reached(self, sections, way):
        """Returns these sections and all that a train reaches from them, as bits."""
        found, left = 0, list(sections)
        while left:
            x = left.pop()
            if not found >> x & 1:
                found |= 1 << x
                if self.facts.board[way][x] < 0:
                    left += self.ahead(x, way)
        return found

    def that_meet(self, sections, others):
        """Returns the routes that touch a section, except `others`."""
        return [r for r, touched in enumerate(self.touched) if touched & sections and r not in others]

    def distances(self):
        """Returns for each board the least number of routes that bring a train to it."""
        found, last = [0 if borders else FAR for borders in self.borders], None
        while found != last:
            last = list(found)
            for b, before in enumerate(self.boards):
                found[b] = min([found[b], *(last[a] + 1 for a in before)])
        return found

    def chain(self, chance, b):
        """Returns routes, in order, that bring a train to a board, usually a short way, and their
        border, if any."""
        routes = []
        for _ in self.starts:
            if self.borders[b] and (not self.boards[b] or chance.random() < 0.85):
                return routes[::-1], chance.choice(self.borders[b])
            if not self.boards[b]:
                break
            if chance.random() < 0.8:
                a = min(self.boards[b], key=lambda one: (self.distance[one], chance.random()))
            else:
                a = chance.choice(self.boards[b])
            routes.append(self.leading(chance, a, b))
            b = a
        return routes, None

    def leading(self, chance, a, b):
        """Returns a route from one board to another, or if there is none any route from the first."""
        end = self.starts[b][0]
        ending = [r for r in self.from_board[a] if self.facts.path[r][-1] == end]
        return chance.choice(ending or self.from_board[a])
