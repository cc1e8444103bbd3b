"""Makes tracks from an OpenStreetMap file with OpenRailwayMap tags."""

import math
from pathlib import Path
from typing import Dict, List, Optional, Tuple

from irvtools.importing.faults import ImportFault
from irvtools.importing.notes import Notes
from irvtools.importing.osm_file import TRACKS, Place, Places, Way, Ways
from irvtools.importing.tracks import Board, Segment, Tracks, bearing, length, turn

ATTRIBUTION = "© OpenStreetMap contributors, ODbL 1.0"
METRES_NORTH = 110_570.0
METRES_EAST = 111_320.0

Near = Tuple[float, float, float]


class Map:
    """The tracks of a map in the requested area."""

    def __init__(self, path: Path, near: Optional[Near], notes: Notes):
        self.path, self.near, self.notes = path, near, notes
        self.ways = Ways(path).found
        places = Places(path, self.ways)
        self.places = places.found
        latitudes = [place.lat for place in self.places.values()]
        middle = near[0] if near else sum(latitudes) / max(1, len(latitudes))
        self.east = METRES_EAST * math.cos(math.radians(middle))
        self.lines = [(way, line) for way in self.ways.values() for line in self.lines_of(way)]
        self.note_beside(places.beside)

    def xy(self, place: Place) -> Tuple[float, float]:
        """Returns a place's coordinates in metres."""
        return place.lon * self.east, place.lat * METRES_NORTH

    def is_near(self, place: Place) -> bool:
        """Returns whether a place is in the requested area."""
        if self.near is None:
            return True
        lat, lon, metres = self.near
        return math.dist(self.xy(place), (lon * self.east, lat * METRES_NORTH)) <= metres

    def note_beside(self, beside: Dict[str, Place]) -> None:
        """Notes the signals that no track has."""
        for key, place in beside.items():
            if place.is_board() and self.is_near(place):
                self.notes.add("left out", f"node {key}", "a signal that is on no track")

    def lines_of(self, way: Way) -> List[List[str]]:
        """Returns the pieces of a way whose nodes are in the file and near enough. Each step has an
        end in the area."""
        lines: List[List[str]] = []
        line: List[str] = []
        lost = 0
        for first, second in zip(way.nodes, way.nodes[1:]):
            known = first in self.places and second in self.places
            lost += not known
            if first == second:
                continue
            if known and (self.is_near(self.places[first]) or self.is_near(self.places[second])):
                line = line or [first]
                line.append(second)
            elif line:
                lines.append(line)
                line = []
        if line:
            lines.append(line)
        if lost:
            self.notes.add("cut", f"way {way.key}", f"{lost} steps to nodes that the file lacks")
        return lines


def stops(lines) -> Dict[str, int]:
    """Returns each node's number of arms: 1 at a line's end, 2 inside."""
    uses: Dict[str, int] = {}
    for _, line in lines:
        for place, node in enumerate(line):
            uses[node] = uses.get(node, 0) + (1 if place in (0, len(line) - 1) else 2)
    return uses


def pieces(line: List[str], uses: Dict[str, int], found: Map) -> List[List[str]]:
    """Returns a line split at switches, boards and the end of the area."""
    parts, last = [], 0
    for number in range(1, len(line)):
        place = found.places[line[number]]
        if number == len(line) - 1 or uses[line[number]] > 2 or place.is_board() or \
                not found.is_near(place):
            parts.append(line[last:number + 1])
            last = number
    return parts


def node_key(tracks: Tracks, node: str, segment: str, found: Map) -> str:
    """Returns the key of the node at a segment's end. Each track that leaves the area has its own
    end, since its continuation is unknown."""
    place = found.places[node]
    if found.is_near(place):
        describe(tracks, node, place)
        return node
    key = f"{node} {segment}"
    tracks.node(key, f"node {node}").end = "cut: the end of the area"
    return key


def add_lines(tracks: Tracks, found: Map) -> None:
    """Adds all lines' segments."""
    uses, counts = stops(found.lines), {}
    for way, line in found.lines:
        for nodes in pieces(line, uses, found):
            number = counts[way.key] = counts.get(way.key, -1) + 1
            places = [found.xy(found.places[node]) for node in nodes]
            key = way.key if number == 0 else f"{way.key}_{number}"
            tracks.segments[key] = Segment(
                (node_key(tracks, nodes[0], key, found), node_key(tracks, nodes[-1], key, found)),
                length(places), (bearing(places), bearing(places[::-1])), f"way {way.key}",
                way.tags.get("railway:track_ref"))


def describe(tracks: Tracks, key: str, place: Place) -> None:
    """Adds the information in a node's tags."""
    node, tags = tracks.node(key, f"node {key}"), place.tags
    kind = tags.get("railway")
    if kind == "buffer_stop":
        node.end = "buffer stop"
    if kind == "switch":
        node.name = tags.get("ref")
        side = tags.get("railway:turnout_side")
        node.side = side if side in ("left", "right") else None
        if tags.get("railway:switch") in ("double_slip", "single_slip"):
            node.kind = tags["railway:switch"].replace("_", " ")
    elif kind == "railway_crossing":
        node.kind = "crossing"


def straight_ways(tracks: Tracks, arms):
    """Returns the two ways of a four-arm crossing: the pairing that bends least."""
    first, rest = arms[0], arms[1:]

    def bend(other):
        """Returns the lesser angle if the first arm is paired with `other`."""
        left = [arm for arm in rest if arm != other]
        return min(turn(tracks.away(first), tracks.away(other)),
                   turn(tracks.away(left[0]), tracks.away(left[1])))

    other = max(rest, key=bend)
    return {frozenset((first, other)), frozenset(arm for arm in rest if arm != other)}


def add_boards(tracks: Tracks, found: Map) -> None:
    """Adds the boards of signals on plain track."""
    notes = found.notes
    for key, arms in tracks.arms().items():
        place = found.places.get(key)
        if place is None or not place.is_board():
            continue
        thing, tags = f"node {key}", place.tags
        if len(arms) != 2:
            where = "at a switch" if len(arms) > 2 else "at the end of a track"
            notes.add("left out", thing, f"a signal {where}")
            continue
        direction = tags.get("railway:signal:direction")
        if direction not in ("forward", "backward", "both"):
            notes.add("guessed", thing, "the signal has no direction: forward is taken")
            direction = "forward"
        wanted = [end for end, name in ((1, "forward"), (0, "backward"))
                  if direction in (name, "both")]
        for end in wanted:
            here = [arm for arm in arms if arm[1] == end] or \
                [arm for arm in arms if arm[1] != end]
            if len(here) != 1:
                here = choose_arm(arms, end, notes, thing)
            tracks.boards[here[0]] = Board(thing, board_name(tags))


def choose_arm(arms, end, notes: Notes, thing: str):
    """Returns the arm of a signal between two ways drawn in opposite directions. It takes the
    direction of the first way."""
    notes.add("guessed", thing, "the signal is between two ways drawn against each other: its "
                                "direction is taken along the first of them")
    return [arms[0]] if arms[0][1] == end else [arms[1]]


def board_name(tags: Dict[str, str]) -> Optional[str]:
    """Returns a signal's name in the data, or `None`."""
    return tags.get("ref") or tags.get("railway:signal:main:ref") or \
        tags.get("railway:signal:train_protection:ref")


def read_osm(path: Path, near: Optional[Near], notes: Notes) -> Tracks:
    """Returns the tracks of an OpenStreetMap file, near a place if given."""
    found, tracks = Map(path, near, notes), Tracks()
    if not found.lines:
        where = f" within {near[2]:g} m of {near[0]:g},{near[1]:g}" if near else ""
        raise ImportFault(f"{path}: no track{where}: no way with railway={'|'.join(TRACKS)}")
    add_lines(tracks, found)
    for key, arms in tracks.arms().items():
        if tracks.nodes[key].kind == "crossing" and len(arms) == 4:
            tracks.nodes[key].ways = straight_ways(tracks, arms)
    add_boards(tracks, found)
    return tracks
