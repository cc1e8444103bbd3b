"""Reads tracks from a SUMO network (`.net.xml`).

Edges over the same ground in both directions are one segment. A node's ways are its connections. A
board is at the end of each edge that a rail signal controls.
"""

import math
from pathlib import Path
from typing import Dict, List, Optional, Set, Tuple

from irvtools.importing.faults import ImportFault, shown
from irvtools.importing.naming import is_name
from irvtools.importing.notes import Notes
from irvtools.importing.safe_xml import Reader
from irvtools.importing.tracks import Arm, Board, Segment, Tracks, bearing

CLASSES = {"rail", "rail_electric", "rail_fast", "rail_urban", "tram", "subway"}
LIMIT_EDGES = 200_000


class Edge:
    """A one-way edge of the network."""

    def __init__(self, key: str, start: str, end: str, bidi: Optional[str]):
        self.key, self.start, self.end, self.bidi = key, start, end, bidi
        self.places: List[Tuple[float, float]] = []
        self.metres = 0.0


class Net:
    """Reads the edges for trains, their connections and the junction kinds."""

    def __init__(self, path: Path):
        self.edges: Dict[str, Edge] = {}
        self.connections: List[Tuple[str, str, bool]] = []
        self.kinds: Dict[str, str] = {}
        self.root = ""
        self.current: Optional[Edge] = None
        self.own_shape = False
        self.reader = Reader(path, self.start, self.end)
        self.reader.read()
        if self.root != "net":
            raise ImportFault(f"{path}: line 1: the element <net> is expected")

    def start(self, name, attributes):
        """Takes an element's start."""
        self.root = self.root or name
        if name == "edge":
            self.current = None if attributes.get("function") else self.edge(attributes)
        elif name == "lane" and self.current is not None:
            self.lane(attributes)
        elif name == "junction":
            self.kinds[attributes.get("id", "")] = attributes.get("type", "")
        elif name == "connection":
            self.connections.append((attributes.get("from", ""), attributes.get("to", ""),
                                     bool(attributes.get("tl"))))

    def edge(self, attributes) -> Edge:
        """Returns a new edge."""
        key = attributes.get("id", "")
        if not key or not attributes.get("from") or not attributes.get("to"):
            raise self.reader.fault(f"edge \"{shown(key)}\" has no id, from or to")
        if key in self.edges:
            raise self.reader.fault(f"edge {shown(key)} is in the file twice")
        made = Edge(key, attributes["from"], attributes["to"], attributes.get("bidi"))
        self.own_shape = bool(attributes.get("shape"))
        if self.own_shape:
            made.places = self.shape(key, attributes["shape"])
        return made

    def lane(self, attributes) -> None:
        """Keeps the current edge if trains may use this lane."""
        edge = self.current
        if edge.key in self.edges or not CLASSES & set(attributes.get("allow", "").split()):
            return
        if len(self.edges) >= LIMIT_EDGES:
            raise self.reader.fault(f"edge {shown(edge.key)}: more than {LIMIT_EDGES} edges")
        if not self.own_shape:
            edge.places = self.shape(edge.key, attributes.get("shape", ""))
        try:
            edge.metres = float(attributes.get("length", ""))
        except ValueError:
            edge.metres = math.nan
        if not 0 <= edge.metres < 1e7:
            raise self.reader.fault(f"edge {shown(edge.key)}: its lane has no length in metres")
        self.edges[edge.key] = edge

    def shape(self, key: str, text: str) -> List[Tuple[float, float]]:
        """Returns the places of a shape."""
        try:
            places = [tuple(float(part) for part in place.split(",")[:2])
                      for place in text.split()]
        except ValueError:
            places = []
        if len(places) < 2 or any(len(place) != 2 or not all(map(math.isfinite, place))
                                  for place in places):
            raise self.reader.fault(f"edge {shown(key)}: its shape is not a list of places")
        return places

    def end(self, name):
        """Takes an element's end."""
        if name == "edge":
            self.current = None


def is_same_ground(one: Edge, other: Edge) -> bool:
    """Returns whether two edges between the same nodes are one track in both directions."""
    if one.bidi == other.key or other.bidi == one.key:
        return True
    if one.key in ("-" + other.key, other.key[1:] if other.key.startswith("-") else None):
        return True
    return len(one.places) == len(other.places) and all(
        math.dist(here, there) < 2 for here, there in zip(one.places, other.places[::-1]))


def add_edges(tracks: Tracks, net: Net) -> Dict[str, Arm]:
    """Adds a segment for each track. Returns the arm over which each edge leaves."""
    leaves: Dict[str, Arm] = {}
    paired: Set[str] = set()
    between: Dict[Tuple[str, str], List[Edge]] = {}
    for edge in net.edges.values():
        between.setdefault((edge.start, edge.end), []).append(edge)
    for key, edge in net.edges.items():
        back = next((other for other in between.get((edge.end, edge.start), ())
                     if leaves.get(other.key) == (other.key, 1)
                     and other.key not in paired and is_same_ground(edge, other)), None)
        if back:
            leaves[key] = (back.key, 0)
            paired.add(back.key)
            continue
        tracks.segments[key] = Segment((edge.start, edge.end), edge.metres,
                                       (bearing(edge.places), bearing(edge.places[::-1])),
                                       f"edge {shown(key)}", key if is_name(key) else None)
        leaves[key] = (key, 1)
        for node in (edge.start, edge.end):
            tracks.node(node, f"junction {shown(node)}")
    return leaves


def add_connections(tracks: Tracks, net: Net, leaves: Dict[str, Arm], notes: Notes) -> None:
    """Adds the ways through the nodes, and the boards."""
    for start, end, has_signal in net.connections:
        if start not in leaves or end not in leaves:
            continue
        arm, (segment, far) = leaves[start], leaves[end]
        if arm[0] == segment:
            continue                    # train reverses
        key = net.edges[start].end
        if net.edges[end].start != key:
            raise ImportFault(f"{notes.source}: the connection from edge {shown(start)} to edge "
                              f"{shown(end)}: they meet at no junction")
        node = tracks.nodes[key]
        node.ways = (node.ways or set()) | {frozenset((arm, (segment, 1 - far)))}
        if has_signal and net.kinds.get(key) == "rail_signal":
            name = key if is_name(key) else None
            tracks.boards[arm] = Board(f"junction {shown(key)}", name)


def read_sumo(path: Path, notes: Notes) -> Tracks:
    """Returns the tracks of a SUMO network."""
    net, tracks = Net(path), Tracks()
    if not net.edges:
        raise ImportFault(f"{path}: no track: no edge with a lane that allows "
                          f"{', '.join(sorted(CLASSES))}")
    add_connections(tracks, net, add_edges(tracks, net), notes)
    return tracks
