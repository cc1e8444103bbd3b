"""Makes sections and points of directed tracks.

Tracks through plain joints become one linear section. A node of three arms becomes a point, one of
four arms two points. Keys refer to sections; `naming` gives the names.
"""

import math
from typing import Dict, List, Optional, Tuple, Union

from irvtools.importing.directions import Directions
from irvtools.importing.faults import ImportFault
from irvtools.importing.tracks import Arm, Board, Node, Tracks, turn

Key = Tuple[str, str]


class Linear:
    """A linear section: its segments from down to up, its neighbours and its boards."""

    def __init__(self, key: Key, chain: List[str], metres: float):
        self.key, self.chain, self.metres = key, chain, metres
        self.down: Optional[Key] = None
        self.up: Optional[Key] = None
        self.boards: Dict[str, Optional[Board]] = {"down": None, "up": None}

    def neighbours(self) -> List[Key]:
        """Returns the keys of existing neighbours."""
        return [key for key in (self.down, self.up) if key]

    def replace(self, old: Key, new: Key) -> None:
        """Replaces one neighbour."""
        self.down = new if self.down == old else self.down
        self.up = new if self.up == old else self.up


class Point:
    """A point: its node, its facing direction and its three neighbours. `why` says what chose the
    plus leg."""

    def __init__(self, key: Key, node: Node, faces: str, why: str):
        self.key, self.node, self.faces, self.why = key, node, faces, why
        self.stem: Optional[Key] = None
        self.plus: Optional[Key] = None
        self.minus: Optional[Key] = None

    def neighbours(self) -> List[Key]:
        """Returns the neighbours' keys."""
        return [key for key in (self.stem, self.plus, self.minus) if key]

    def replace(self, old: Key, new: Key) -> None:
        """Replaces one neighbour."""
        for leg in ("stem", "plus", "minus"):
            if getattr(self, leg) == old:
                setattr(self, leg, new)


class Crossing:
    """The result of a four-arm node: the two points, and the pairs of legs without a track in the
    data."""

    def __init__(self, node: Node, points: List[Key], kind: str, missing: List[Tuple[str, str]]):
        self.node, self.points, self.kind, self.missing = node, points, kind, missing


class Sections:
    """All sections of one part, by key."""

    def __init__(self, tracks: Tracks, directions: Directions):
        self.tracks, self.up, self.at = tracks, directions.up, directions.at
        self.all: Dict[Key, Union[Linear, Point]] = {}
        self.of_segment: Dict[str, Key] = {}
        self.crossings: List[Crossing] = []
        self.ends: List[Tuple[Key, str, Node]] = []
        for key in tracks.segments:
            if key not in self.of_segment:
                self.add_chain(key)
        for key, arms in self.at.items():
            self.join(key, arms)

    def linear(self) -> List[Linear]:
        """Returns the linear sections."""
        return [one for one in self.all.values() if isinstance(one, Linear)]

    def points(self) -> List[Point]:
        """Returns the points."""
        return [one for one in self.all.values() if isinstance(one, Point)]

    # chains

    def next_of(self, arm: Arm) -> Optional[Arm]:
        """Returns the arm behind a plain joint without a board, or `None`."""
        arms = self.at[self.tracks.segments[arm[0]].ends[arm[1]]]
        if len(arms) != 2 or any(one in self.tracks.boards for one in arms):
            return None
        other = arms[1] if arms[0] == arm else arms[0]
        is_through = (self.up[arm[0]] == arm[1]) != (self.up[other[0]] == other[1])
        return other if is_through else None

    def add_chain(self, key: str) -> None:
        """Makes the linear section of a segment."""
        chain = [key]
        for upward in (True, False):
            while True:
                last = chain[-1] if upward else chain[0]
                beyond = self.next_of((last, self.up[last] if upward else 1 - self.up[last]))
                if beyond is None or beyond[0] in chain:
                    break
                chain.insert(len(chain) if upward else 0, beyond[0])
        made = Linear(("t", chain[0]), chain,
                      sum(self.tracks.segments[one].metres for one in chain))
        first, last = chain[0], chain[-1]
        made.boards["down"] = self.tracks.boards.get((first, 1 - self.up[first]))
        made.boards["up"] = self.tracks.boards.get((last, self.up[last]))
        self.all[made.key] = made
        self.of_segment.update(dict.fromkeys(chain, made.key))

    # nodes

    def section_of(self, arm: Arm) -> Key:
        """Returns an arm's linear section."""
        return self.of_segment[arm[0]]

    def link(self, arm: Arm, to: Key) -> None:
        """Makes a section the neighbour of an arm's section, over that arm's end."""
        setattr(self.all[self.section_of(arm)], "up" if self.up[arm[0]] == arm[1] else "down", to)

    def leg(self, point: Key, arm: Arm) -> str:
        """Returns a point's leg at an arm's section."""
        return "plus" if self.all[point].plus == self.section_of(arm) else "minus"

    def join(self, key: str, arms: List[Arm]) -> None:
        """Joins the sections at a node."""
        node = self.tracks.nodes[key]
        below = [arm for arm in arms if self.up[arm[0]] == arm[1]]
        above = [arm for arm in arms if self.up[arm[0]] != arm[1]]
        if len(arms) == 1 or len(arms) == 2 and not (below and above):
            if len(arms) == 2:
                node.end = "two tracks meet at an acute angle: both end there"
            self.ends += [(self.section_of(arm), "up" if below else "down", node) for arm in arms]
        elif not below or not above:
            raise ImportFault(f"{node.thing}: {len(arms)} tracks meet there, all from one side")
        elif len(arms) == 2:
            if self.section_of(below[0]) != self.section_of(above[0]):
                self.link(below[0], self.section_of(above[0]))
                self.link(above[0], self.section_of(below[0]))
        elif len(below) == 1:
            self.fan(key, node, above, below, "up")
        elif len(above) == 1:
            self.fan(key, node, below, above, "down")
        else:
            self.cross(key, node, below, above)

    def fan(self, key: str, node: Node, legs: List[Arm], stem: List[Arm], faces: str) -> Key:
        """Makes a point, or two in a row, over some legs. Returns the key of the first."""
        legs, why = self.ordered(node, legs, stem)
        made = []
        while len(legs) > 1:
            point = Point(("p", f"{key}{faces[0] * len(made)}{faces}"), node, faces, why)
            point.minus = self.section_of(legs[-1])
            self.link(legs.pop(), point.key)
            if made:
                point.stem, made[-1].plus = made[-1].key, point.key
            made.append(point)
            self.all[point.key] = point
        made[-1].plus = self.section_of(legs[0])
        self.link(legs[0], made[-1].key)
        if len(stem) == 1:
            made[0].stem = self.section_of(stem[0])
            self.link(stem[0], made[0].key)
        return made[0].key

    def ordered(self, node: Node, legs: List[Arm], stem: List[Arm]) -> Tuple[List[Arm], str]:
        """Returns the legs, the plus leg first, and what chose it."""
        away = self.tracks.away
        if len(stem) == 1:
            axis = away(stem[0]) + math.pi
        else:
            axis = math.atan2(sum(math.sin(away(leg)) for leg in legs),
                              sum(math.cos(away(leg)) for leg in legs))
        legs = sorted(legs, key=lambda leg: (turn(away(leg), axis), leg))
        if node.normal in legs:
            legs.remove(node.normal)
            return [node.normal] + legs, "the data"
        if node.side and len(legs) == 2:
            from_axis = [math.sin(away(leg) - axis) for leg in legs]
            left = from_axis.index(max(from_axis))
            straight = 1 - left if node.side == "left" else left
            return [legs[straight], legs[1 - straight]], "the data"
        return legs, "the straighter leg is taken as plus"

    def cross(self, key: str, node: Node, below: List[Arm], above: List[Arm]) -> None:
        """Makes two points, stem to stem, of a node with two arms on each side."""
        first = self.fan(key, node, below, above, "down")
        second = self.fan(key, node, above, below, "up")
        self.all[first].stem, self.all[second].stem = second, first
        missing = [(self.leg(first, x), self.leg(second, y)) for x in below for y in above
                   if node.ways is not None and frozenset((x, y)) not in node.ways]
        kind = node.kind or ("crossing" if missing else "double slip" if node.ways
                             else "crossing or slip (guessed)")
        self.crossings.append(Crossing(node, [first, second], kind, missing))

    # Sections that are too short, or alone.

    def absorb(self, metres: float) -> List[Linear]:
        """Merges sections below a length, without boards and between two points, into the points.
        Returns these sections."""
        gone = []
        for one in self.linear():
            if one.metres >= metres or not one.down or not one.up or any(one.boards.values()):
                continue
            below, above = self.all[one.down], self.all[one.up]
            if isinstance(below, Linear) or isinstance(above, Linear) or \
                    below.key in above.neighbours() or above.key in below.neighbours():
                continue
            below.replace(one.key, above.key)
            above.replace(one.key, below.key)
            del self.all[one.key]
            gone.append(one)
        return gone

    def drop_alone(self) -> List[Linear]:
        """Drops isolated sections, and returns them."""
        alone = [one for one in self.linear() if not one.neighbours()]
        for one in alone:
            del self.all[one.key]
        return alone
