"""The direction of every segment: which end is the up end."""

import math
from typing import Dict, List, Optional, Tuple

from irvtools.importing.faults import ImportFault
from irvtools.importing.notes import Notes
from irvtools.importing.parts import cut
from irvtools.importing.tracks import Arm, Node, Tracks, turn

LIMIT_CUTS = 64
ACUTE = math.pi / 3
MOST_ARMS = 4

Sides = Tuple[List[Arm], List[Arm]]


def is_acute(tracks: Tracks, node: Node, arms: List[Arm]) -> bool:
    """Returns whether two tracks meet at an angle that no train can pass. Both end there."""
    return len(arms) == 2 and node.ways is None and \
        turn(tracks.away(arms[0]), tracks.away(arms[1])) < ACUTE


def sides_of(tracks: Tracks, key: str, arms: List[Arm]) -> Sides:
    """Returns the two sides of a node. Every way through leads from one to the other. The split
    that bends least is chosen."""
    node, best, least = tracks.nodes[key], None, -1.0
    if len(arms) <= 2:
        return (arms, []) if is_acute(tracks, node, arms) else (arms[:1], arms[1:])
    if len(arms) > MOST_ARMS:
        raise ImportFault(f"{node.thing}: {len(arms)} tracks meet there; "
                          f"at most {MOST_ARMS} can be imported")
    for mask in range(1, 2 ** (len(arms) - 1)):
        one = [arm for place, arm in enumerate(arms) if not mask >> place & 1]
        two = [arm for place, arm in enumerate(arms) if mask >> place & 1]
        if node.ways and any(len(way & set(one)) != 1 for way in node.ways):
            continue
        bend = min(turn(tracks.away(x), tracks.away(y)) for x in one for y in two)
        if bend > least:
            best, least = (one, two), bend
    if best is None:
        raise ImportFault(f"{node.thing}: the ways through it have no two sides "
                          f"(a triangle in one place)")
    return best


class Directions:
    """The sides of nodes and the up ends of segments."""

    def __init__(self, tracks: Tracks):
        self.tracks = tracks
        self.at = tracks.arms()
        self.sides = {key: sides_of(tracks, key, arms) for key, arms in self.at.items()}
        self.up: Dict[str, int] = {}

    def next_arms(self, key: str):
        """Yields the arms that meet a segment, each with its node and its up end."""
        for end, node in enumerate(self.tracks.segments[key].ends):
            mine = 0 if (key, end) in self.sides[node][0] else 1
            for side in (0, 1):
                for other, other_end in self.sides[node][side]:
                    if (other, other_end) != (key, end):
                        same = (side == mine) == (self.up[key] == end)
                        yield node, other, other_end if same else 1 - other_end

    def spread(self, first: str) -> Optional[Tuple[str, str]]:
        """Gives directions to everything connected with a segment. Returns node and segment of a
        direction conflict, if any."""
        self.up[first], group = 1, [first]
        for key in group:
            for node, other, wanted in self.next_arms(key):
                if other not in self.up:
                    self.up[other] = wanted
                    group.append(other)
                elif self.up[other] != wanted:
                    return node, other
        self.point_east(group)
        return None

    def point_east(self, group: List[str]) -> None:
        """Turns a group round if up leads west on the whole."""
        east = 0.0
        for key in group:
            segment, end = self.tracks.segments[key], self.up[key]
            middle = math.cos(segment.away[1 - end]) - math.cos(segment.away[end])
            east += segment.metres * middle
        if east < 0:
            for key in group:
                self.up[key] = 1 - self.up[key]

    def clash(self) -> Optional[Tuple[str, str]]:
        """Gives a direction to every segment. Returns the first clash, like `spread`."""
        for key in self.tracks.segments:
            if key not in self.up:
                found = self.spread(key)
                if found:
                    return found
        return None

    def followers(self, key: str) -> List[str]:
        """Returns the segments that follow in direction up."""
        node = self.tracks.segments[key].ends[self.up[key]]
        return [other for other, end in self.at[node] if self.up[other] != end]

    def loop(self) -> List[str]:
        """Returns the segments of a loop in direction up; none if there is no loop."""
        colour: Dict[str, int] = {}
        for root in self.tracks.segments:
            path, stack = [], [] if root in colour else [(root, None)]
            while stack:
                key, rest = stack.pop()
                if rest is None:
                    colour[key], rest = 1, iter(self.followers(key))
                    path.append(key)
                for other in rest:
                    if colour.get(other) == 1:
                        return path[path.index(other):]
                    if other not in colour:
                        stack += [(key, rest), (other, None)]
                        break
                else:
                    colour[key] = 2
                    path.pop()
        return []


def directed(tracks: Tracks, cut_loops: bool, notes: Notes) -> Directions:
    """Returns the directions of all segments. Loops in one direction are cut. Reversing loops are
    cut if `cut_loops`; otherwise they are a fault."""
    for _ in range(LIMIT_CUTS):
        found = Directions(tracks)
        clash = found.clash()
        if clash:
            node, key = clash
            thing = tracks.segments[key].thing
            if not cut_loops:
                raise ImportFault(
                    f"{thing}: a reversing loop or a triangle: a train that follows it meets "
                    f"{tracks.nodes[node].thing} again in the other direction. Cut it with "
                    f"--cut \"{thing}\", or all of them with --cut-loops")
            cut(tracks, key, "a reversing loop or a triangle closes here", notes)
            continue
        loop = found.loop()
        if not loop:
            return found
        key = max(loop, key=lambda one: (tracks.segments[one].metres, one))
        cut(tracks, key, f"a loop of {len(loop)} segments in one direction", notes)
    raise ImportFault(f"{tracks.segments[min(tracks.segments)].thing}: the part with this object "
                      f"has more than {LIMIT_CUTS} loops; cut a smaller area out of it")
