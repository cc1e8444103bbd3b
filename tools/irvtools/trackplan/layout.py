"""The places of a plant's sections in a track plan.

A joint joins two sections, or is an end of the network. A section reaches from joint to joint,
straight except for the minus leg of points, which leads aside to another row. There the section at
its end goes on. So the sections fall into tracks: chains of sections joined straight.

A descent over a cost chooses the rows: tracks on one row must not overlap; legs should be short and
cross no track. Then the joints get places along the plan. Nothing is random.

A network that breaks rules gets a plan too. A joint that only one side names counts; one that would
close a circle is left out.
"""

from irvtools.model.plant import OPPOSITE
from irvtools.trackplan.spacing import lowest, pulled
from irvtools.trackplan.rows import GAP, ROW, Rows

CHARACTER = 6.7         # width of a letter
FROG = 12               # from the stem joint of points to the parting of their legs
LEAST_LINEAR = 80
LEAST_POINT = 54


class Joint:
    """A joint of a lower and a higher section, each with its leg. A section is `None` at the
    network's end; a leg is `None` if that side does not name the other."""

    def __init__(self, low, high):
        self.low, self.high = low, high
        self.low_leg = self.high_leg = None
        self.x = 0.0

    def is_aside(self):
        """Returns whether a minus leg leads to it."""
        return "minus" in (self.low_leg, self.high_leg)

    def is_between_minus(self):
        """Returns whether it is between two minus legs, as in the middle of a crossover."""
        return self.low_leg == self.high_leg == "minus"


def make_joints(plant):
    """Returns the joints in the order of the sections and their ends, and whether any were left out
    because they close a circle."""
    joints = {}
    for x, section in enumerate(plant.sections):
        for side, leg, name in section.ends:
            other = plant.section_named.get(name)
            if other is None or other == x:
                continue
            key = (x, other) if side == "up" else (other, x)
            joint = joints.setdefault(key, Joint(*key))
            if side == "up":
                joint.low_leg = joint.low_leg or leg
            else:
                joint.high_leg = joint.high_leg or leg
    kept = without_circles(len(plant.sections), list(joints.values()))
    return kept, len(kept) < len(joints)


def without_circles(count, joints):
    """Returns the joints, without those that lead a walk up back to an earlier section."""
    outs = [[] for _ in range(count)]
    for joint in joints:
        outs[joint.low].append(joint)
    done, open_, dropped = set(), set(), set()
    for root in range(count):
        stack = [(root, iter(outs[root]))] if root not in done else []
        open_.update([root] if stack else [])
        while stack:
            x, rest = stack[-1]
            joint = next(rest, None)
            if joint is None:
                open_.discard(x)
                done.add(x)
                stack.pop()
            elif joint.high in open_:
                dropped.add(joint)
            elif joint.high not in done:
                open_.add(joint.high)
                stack.append((joint.high, iter(outs[joint.high])))
    return [joint for joint in joints if joint not in dropped]


class Layout:
    """A plant's joints along the plan, and its sections' rows."""

    def __init__(self, plant):
        self.plant = plant
        self.joints, self.is_cut = make_joints(plant)
        self.at = [{} for _ in plant.sections]      # for each section: the joints by leg or side
        self.place_joints()
        self.tracks = self.make_tracks()
        self.track_of = {x: t for t, track in enumerate(self.tracks) for x in track}
        self.aside = [joint for joint in self.joints if not self.is_straight(joint)]
        self.rows = [0] * len(self.tracks)
        self.place_along(first=True)
        Rows(self).choose()
        self.place_along(first=False)
        self.reach_edges()

    # -- joints and tracks

    def place_joints(self):
        """Gives each section its joints, also those at the network's ends."""
        for joint in self.joints:
            for x, side, leg in ((joint.low, "up", joint.low_leg),
                                 (joint.high, "down", joint.high_leg)):
                section = self.plant.sections[x]
                key = section.key_of(side, leg)
                if key is None or key in self.at[x]:
                    key = (side, joint.low, joint.high)     # this side does not name the other
                self.at[x][key] = joint
        for x, section in enumerate(self.plant.sections):
            keys = ("stem", "plus", "minus") if section.is_point else ("down", "up")
            for key in keys:
                if key not in self.at[x]:
                    self.at[x][key] = self.end_joint(x, key)

    def end_joint(self, x, key):
        """Returns a joint at the network's end."""
        if self.side_of(x, key) == "up":
            joint = Joint(x, None)
            joint.low_leg = key if self.plant.sections[x].is_point else "line"
        else:
            joint = Joint(None, x)
            joint.high_leg = key if self.plant.sections[x].is_point else "line"
        return joint

    def side_of(self, x, key):
        """Returns the side of a section on which an end is."""
        section = self.plant.sections[x]
        if isinstance(key, tuple):
            return key[0]
        if not section.is_point:
            return key
        return OPPOSITE[section.faces] if key == "stem" else section.faces

    def is_straight(self, joint):
        """Returns whether a joint's sections are on one track."""
        return joint in self.straight

    def make_tracks(self):
        """Returns the chains of sections joined straight, in order of their first sections."""
        after, before = {}, {}
        self.straight = set()
        for joint in self.joints:
            if not joint.is_aside() and joint.low not in after and joint.high not in before:
                after[joint.low], before[joint.high] = joint.high, joint.low
                self.straight.add(joint)
        tracks, done = [], set()
        for x in range(len(self.plant.sections)):
            if x in done:
                continue
            while x in before:
                x = before[x]
            track = [x]
            while track[-1] in after:
                track.append(after[track[-1]])
            done.update(track)
            tracks.append(track)
        return tracks

    def row(self, x):
        """Returns the row of a section."""
        return self.rows[self.track_of[x]]

    # -- along the plan

    def length_of(self, x):
        """Returns the least length of a section for its texts."""
        section = self.plant.sections[x]
        widest = len(section.name)
        if section.is_point:
            return max(LEAST_POINT, widest * CHARACTER + 16)
        signs = [len(self.plant.boards[b].name) for side in OPPOSITE
                 for b in [self.plant.board_on.get((x, side))] if b is not None]
        return max([LEAST_LINEAR, widest * CHARACTER + 12,
                    *(sign * CHARACTER + 32 for sign in signs)])

    def rise(self, joint, first):
        """Returns a leg's length along the plan for the rows that it crosses."""
        if first:
            return ROW
        rows = abs(self.row(joint.low) - self.row(joint.high)) or 1
        return ROW * min(rows, 1 + 0.5 * (rows - 1))

    def stem(self, x):
        """Returns the stem joint of points."""
        return self.at[x]["stem"]

    def demands(self, first):
        """Yields the demands on the joints' places: a joint, a later one, their least distance, and
        the weight of any excess."""
        for x, section in enumerate(self.plant.sections):
            weight = 1.6 if section.is_point else 1.0
            downs = [j for key, j in self.at[x].items() if self.side_of(x, key) == "down"]
            ups = [j for key, j in self.at[x].items() if self.side_of(x, key) == "up"]
            for low in downs:
                for high in ups:
                    if "minus" not in (low.high_leg, high.low_leg):
                        yield low, high, self.length_of(x), weight
            if section.is_point:
                yield from self.leg_demand(x, section, first)
        if not first:
            yield from self.track_demands()

    def leg_demand(self, x, section, first):
        """Yields the demands of the minus leg of points."""
        joint, stem = self.at[x]["minus"], self.stem(x)
        up = section.faces == "up"
        if joint.low is None or joint.high is None:
            yield (stem, joint, FROG + ROW, 1.0) if up else (joint, stem, FROG + ROW, 1.0)
        elif joint.is_between_minus():
            if up:
                yield stem, self.stem(joint.high), self.rise(joint, first) + 2 * FROG, 4.0
        elif up:
            yield stem, joint, self.rise(joint, first) + FROG, 4.0
        else:
            yield joint, stem, self.rise(joint, first) + FROG, 4.0

    def ends_of(self, track):
        """Returns the first and the last joint of a track."""
        first, last = track[0], track[-1]
        low = min((j for key, j in self.at[first].items() if self.side_of(first, key) == "down"),
                  key=lambda j: j.x)
        high = max((j for key, j in self.at[last].items() if self.side_of(last, key) == "up"),
                   key=lambda j: j.x)
        return low, high

    def track_demands(self):
        """Yields the demands by which tracks on one row follow one another."""
        for row in set(self.rows):
            ends = sorted((self.ends_of(track) for track, at in zip(self.tracks, self.rows)
                           if at == row), key=lambda pair: (pair[0].x + pair[1].x))
            for (_, end), (begin, _) in zip(ends, ends[1:]):
                if begin.x >= end.x:        # otherwise they overlap, and the descent found nothing better
                    yield end, begin, GAP, 0.0

    def place_along(self, first):
        """Places the joints as far down as the demands allow, then pulls them together."""
        demands = [demand for demand in self.demands(first) if demand[0] is not demand[1]]
        joints = list(dict.fromkeys(j for demand in demands for j in demand[:2]))
        number = {joint: i for i, joint in enumerate(joints)}
        rows = [(number[low], number[high], least, weight)
                for low, high, least, weight in demands]
        for joint, x in zip(joints, pulled(len(joints), rows, lowest(len(joints), rows))):
            joint.x = x
        for joint in self.joints:
            if joint.is_between_minus():
                joint.x = (self.frog(joint.low) + self.frog(joint.high)) / 2

    def frog(self, x):
        """Returns the place at which the legs of points part."""
        return self.stem(x).x + (FROG if self.plant.sections[x].faces == "up" else -FROG)

    def span(self, track):
        """Returns both ends of a track."""
        low, high = self.ends_of(track)
        return low.x, high.x

    def reach_edges(self):
        """Draws tracks that end near the plan's edge to the edge, if nothing is between."""
        low = min(joint.x for at in self.at for joint in at.values())
        high = max(joint.x for at in self.at for joint in at.values())
        for t, track in enumerate(self.tracks):
            begin, end = self.ends_of(track)
            if begin.low is None and begin.x - low < 300 and self.is_clear(t, low, begin.x):
                begin.x = low
            if end.high is None and high - end.x < 300 and self.is_clear(t, end.x, high):
                end.x = high

    def is_clear(self, t, low, high):
        """Returns whether a track's row has no other track and no leg between two places."""
        row = self.rows[t]
        for other, track in enumerate(self.tracks):
            begin, end = self.span(track)
            if other != t and self.rows[other] == row and begin < high and end > low:
                return False
        for joint in self.aside:
            rows = sorted((self.row(joint.low), self.row(joint.high)))
            if rows[0] <= row <= rows[1] and low - ROW < joint.x < high + ROW \
                    and t not in (self.track_of[joint.low], self.track_of[joint.high]):
                return False
        return True
