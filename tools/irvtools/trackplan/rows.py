"""A plan's rows: the vertical order of its tracks.

A descent over a cost finds them. Tracks on one row must not overlap; legs should be short and cross
no track. Among equals the configuration's order counts. Nothing is random."""

ROW = 68                # between rows
GAP = 34                # between tracks on one row
MOST_PAIRS = 1000       # legs that may cross
MOST_WORK = 1200000     # descent: tracks, legs and pairs of legs examined


class Rows:
    """The choice of rows for the tracks."""

    def __init__(self, layout):
        self.layout = layout
        self.spans = [layout.span(track) for track in layout.tracks]
        self.is_open = []       # for each track: whether the network ends at its begin, and at its end
        for track in layout.tracks:
            low, high = layout.ends_of(track)
            self.is_open.append((low.low is None, high.high is None))
        self.count = len(layout.tracks)
        self.legs = [self.leg(joint) for joint in layout.aside]
        self.pairs = [(one, other) for place, one in enumerate(self.legs)
                      for other in self.legs[:place]
                      if min(one[3], other[3]) > max(one[2], other[2]) + 1]
        if len(self.pairs) > MOST_PAIRS:
            self.pairs = []     # too many to examine, or to follow by eye
        self.near = [[] for _ in range(self.count)]
        for low, high, *_ in self.legs:
            if low != high:
                self.near[low].append(high)
                self.near[high].append(low)
        self.work, self.price = 0, self.count + 2 * len(self.legs) + len(self.pairs)

    def leg(self, joint):
        """Returns a leg: the tracks at its lower and higher end, and both ends' places."""
        layout = self.layout
        low, high = layout.track_of[joint.low], layout.track_of[joint.high]
        begin = layout.frog(joint.low) if joint.low_leg == "minus" else joint.x
        end = layout.frog(joint.high) if joint.high_leg == "minus" else joint.x
        return low, high, begin, max(begin, end)

    def choose(self):
        """Chooses the cheapest rows that the descent finds."""
        rows = self.descend(self.begin())
        self.layout.rows = ranks(rows)

    def begin(self):
        """Returns initial rows: the longest track first, then each in the cheapest place beside its
        neighbours."""
        long_first = sorted(range(self.count),
                            key=lambda t: (-len(self.layout.tracks[t]), t))
        rows = {}
        while len(rows) < self.count:
            t = max((t for t in long_first if t not in rows),
                    key=lambda t: (sum(n in rows for n in self.near[t]) > 0, -long_first.index(t)))
            if not rows:
                rows[t] = 0
                continue
            beside = [rows[n] for n in self.near[t] if n in rows] or [max(rows.values()) + 1]
            tries = sorted({at + step for at in beside for step in (1, -1, 2, -2, 0, 3, -3)})
            rows[t] = min(tries, key=lambda at: (self.cost_of(t, at, rows), abs(at - beside[0]), -at))
        return [rows[t] for t in range(self.count)]

    def cost_of(self, t, at, rows):
        """Returns the cost with a track at a row beside those that have one."""
        return self.cost({**rows, t: at})

    def cost(self, rows):
        """Returns the cost of rows: of all tracks, or of some."""
        total = 0.0
        named = rows if isinstance(rows, dict) else dict(enumerate(rows))
        by_row = {}
        for t, row in named.items():
            by_row.setdefault(row, []).append(t)
        for tracks in by_row.values():
            spans = sorted((*self.spans[t], *self.is_open[t]) for t in tracks)
            for (_, end, _, ends), (begin, _, begins, _) in zip(spans, spans[1:]):
                if begin < end + GAP - 1:
                    total += 100
                elif ends or begins:        # the end of a line beside another track misleads
                    total += 5
        for low, high, begin, end in self.legs:
            if low not in named or high not in named:
                continue
            first, last = sorted((named[low], named[high]))
            total += 3 * (last - first) ** 2 + (100 if first == last and low != high else 0)
            for row in range(first + 1, last):
                total += sum(12 for t in by_row.get(row, ())
                             if self.spans[t][0] < end and self.spans[t][1] > begin)
        total += sum(8 for one, other in self.pairs if crosses(one, other, named))
        return total + 0.3 * (max(by_row) - min(by_row)) + self.order_cost(named)

    def order_cost(self, named):
        """Returns a small cost that decides among equals: earlier tracks of the configuration lie
        above, and short tracks outside of long ones."""
        total = 0.0
        longest = max(len(self.layout.tracks[t]) for t in named)
        for t, row in named.items():
            weight = 0.001 if len(self.layout.tracks[t]) * 2 < longest else 0.01
            total -= weight * row * t / self.count
        return total

    def descend(self, rows):
        """Moves tracks one by one, to another row, into a new row, or with another track, while
        that lowers the cost."""
        cost, moved = self.cost(rows), True
        while moved and self.work < MOST_WORK:
            moved = False
            for t in range(self.count):
                best = min(((self.tried(trial), trial) for trial in self.moves(rows, t)),
                           default=None)
                if best and best[0] < cost - 1e-9:
                    cost, rows, moved = best[0], best[1], True
        return rows

    def tried(self, rows):
        """Returns the cost of a tried move, and counts the work."""
        self.work += self.price
        return self.cost(rows)

    def moves(self, rows, t):
        """Yields rows with one track elsewhere."""
        if self.work >= MOST_WORK:
            return
        around = {rows[n] for n in self.near[t]} | {rows[t]}
        for at in range(min(around) - 2, max(around) + 3):
            yield [at if i == t else row for i, row in enumerate(rows)]
            yield ranks([at + 0.5 if i == t else row for i, row in enumerate(rows)])
        for other in self.near[t]:
            swapped = list(rows)
            swapped[t], swapped[other] = rows[other], rows[t]
            yield swapped


def height(leg, x, rows):
    """Returns the row of a leg at a place, between the rows of its ends."""
    low, high, begin, end = leg
    part = (x - begin) / (end - begin) if end > begin else 0.5
    return rows[low] + (rows[high] - rows[low]) * part


def crosses(one, other, rows):
    """Returns whether two legs cross; false unless all their tracks have rows."""
    if any(track not in rows for track in (*one[:2], *other[:2])):
        return False
    begin, end = max(one[2], other[2]), min(one[3], other[3])
    return (height(one, begin, rows) - height(other, begin, rows)) \
        * (height(one, end, rows) - height(other, end, rows)) < 0


def ranks(rows):
    """Returns the rows counted from 0, without gaps."""
    order = {row: i for i, row in enumerate(sorted(set(rows)))}
    return [order[row] for row in rows]
