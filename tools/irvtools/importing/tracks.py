"""Tracks as a graph: segments with two ends, each end at a node.

An arm is a pair of a segment and its end, 0 or 1. A board at an arm is for trains that leave the
segment over that end.
"""

import math
from typing import Dict, FrozenSet, List, Optional, Set, Tuple

Arm = Tuple[str, int]


class Segment:
    """A track between two nodes. `away` are the bearings, in radians, in which it leaves each node;
    `name` is its own name in the data, if any."""

    def __init__(self, ends, metres: float, away, thing: str, name: Optional[str] = None):
        self.ends: List[str] = list(ends)
        self.metres = metres
        self.away: List[float] = list(away)
        self.thing, self.name = thing, name


class Node:
    """A node at the ends of segments. `ways` are the pairs of arms between which a train can run,
    or `None` if the data does not say. `end` says why the track ends there."""

    def __init__(self, thing: str, name: Optional[str] = None):
        self.thing, self.name = thing, name
        self.ways: Optional[Set[FrozenSet[Arm]]] = None
        self.kind: Optional[str] = None         # "crossing", "double_slip", "single_slip"
        self.side: Optional[str] = None         # side to which a switch diverges
        self.normal: Optional[Arm] = None       # arm of the plus leg
        self.end: Optional[str] = None


class Board:
    """A board of the data, with its source object and its name there."""

    def __init__(self, thing: str, name: Optional[str]):
        self.thing, self.name = thing, name


class Tracks:
    """Segments, nodes and boards of one file."""

    def __init__(self):
        self.segments: Dict[str, Segment] = {}
        self.nodes: Dict[str, Node] = {}
        self.boards: Dict[Arm, Board] = {}

    def node(self, key: str, thing: str) -> Node:
        """Returns the node with this key, created if necessary."""
        if key not in self.nodes:
            self.nodes[key] = Node(thing)
        return self.nodes[key]

    def arms(self) -> Dict[str, List[Arm]]:
        """Returns the arms at each node, in segment order."""
        found: Dict[str, List[Arm]] = {}
        for key, segment in self.segments.items():
            for end, node in enumerate(segment.ends):
                found.setdefault(node, []).append((key, end))
        return found

    def away(self, arm: Arm) -> float:
        """Returns the bearing in which an arm leaves its node."""
        return self.segments[arm[0]].away[arm[1]]

    def kept(self, segments: Set[str]) -> "Tracks":
        """Returns these segments with their nodes and boards."""
        part = Tracks()
        part.segments = {key: one for key, one in self.segments.items() if key in segments}
        used = {node for one in part.segments.values() for node in one.ends}
        part.nodes = {key: one for key, one in self.nodes.items() if key in used}
        part.boards = {arm: one for arm, one in self.boards.items() if arm[0] in segments}
        return part


def turn(first: float, second: float) -> float:
    """Returns the angle between two bearings, from 0 to pi."""
    return abs((first - second + math.pi) % (2 * math.pi) - math.pi)


def bearing(places: List[Tuple[float, float]], metres: float = 15.0) -> float:
    """Returns the bearing from the first place to one about `metres` further on."""
    (x, y), last = places[0], places[-1]
    for place in places[1:]:
        last = place
        if math.dist(places[0], place) > metres:
            break
    return math.atan2(last[1] - y, last[0] - x)


def length(places: List[Tuple[float, float]]) -> float:
    """Returns a line's length in metres."""
    return sum(map(math.dist, places, places[1:]))
