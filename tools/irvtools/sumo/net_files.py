"""A network as nodes, edges and connections of SUMO.

A linear section becomes an edge in each direction, `NAME.U` and `NAME.D`. Points become a node,
`pt.NAME`; short edges, `NAME~NAME.U` and `.D`, join two points side by side. A board becomes a rail
signal at its edge's end.
"""

from typing import Dict, List, Set, Tuple

from irvtools.sumo.ways import Network

POINT_METRES = 10.0
ROW_METRES = 60.0
UNCONTROLLED = ' uncontrolled="true"'
LETTER = {"up": "U", "down": "D"}


class NetFiles:
    """A network's nodes, edges and connections. `signalled`: the edges with a board."""

    def __init__(self, network: Network, metres: float):
        self.network, self.metres = network, metres
        self.nodes: Dict[str, Tuple[float, float]] = {}
        self.signals: Set[str] = set()
        self.edges: List[Tuple[str, str, str, float]] = []
        self.connections: List[Tuple[str, str]] = []
        self.signalled: Set[str] = set()
        self.column = self.columns()
        self.row = self.rows()
        for name in network.by_name:
            if network.is_point(name):
                self.add_point(name)
            else:
                self.add_linear(name)

    def columns(self) -> Dict[str, int]:
        """Returns for each section the length of the longest walk up to it."""
        column = dict.fromkeys(self.network.by_name, 0)
        for _ in column:
            before = dict(column)
            for name in column:
                for other in self.network.beyond(name, "up"):
                    column[other] = max(column[other], column[name] + 1)
            if column == before:
                break
        return column

    def rows(self) -> Dict[str, int]:
        """Returns for each section its number in its column."""
        counts: Dict[int, int] = {}
        row = {}
        for name, column in self.column.items():
            row[name] = counts.get(column, 0)
            counts[column] = row[name] + 1
        return row

    def node(self, key: str, column: float, row: float) -> str:
        """Returns a node, and places it at its first use."""
        self.nodes.setdefault(key, (self.metres * column, ROW_METRES * row))
        return key

    def point_node(self, name: str) -> str:
        """Returns the node of a point."""
        return self.node(f"pt.{name}", self.column[name], self.row[name])

    def end_node(self, name: str, side: str) -> str:
        """Returns the node at an end of a linear section."""
        other = self.network.by_name[name][side]
        if other is None:
            shift = 0.5 if side == "up" else -0.5
            return self.node(f"end.{name}.{side}", self.column[name] + shift, self.row[name])
        if self.network.is_point(other):
            return self.point_node(other)
        below, above = (name, other) if side == "up" else (other, name)
        return self.node(f"jt.{below}.{above}", (self.column[below] + self.column[above]) / 2,
                         (self.row[below] + self.row[above]) / 2)

    def add_linear(self, name: str) -> None:
        """Adds a linear section's edges, signals, and joint with the next one."""
        below, above = self.end_node(name, "down"), self.end_node(name, "up")
        self.edges += [(f"{name}.U", below, above, self.metres),
                       (f"{name}.D", above, below, self.metres)]
        for side, node in (("up", above), ("down", below)):
            if self.network.board(name, side):
                self.signals.add(node)
                self.signalled.add(f"{name}.{LETTER[side]}")
        other = self.network.by_name[name]["up"]
        if other and not self.network.is_point(other):
            self.connections += [(f"{name}.U", f"{other}.U"), (f"{other}.D", f"{name}.D")]

    def add_point(self, name: str) -> None:
        """Adds the node of points, its edges to points above, and its connections."""
        for other in self.network.beyond(name, "up"):
            if self.network.is_point(other):
                below, above = self.point_node(name), self.point_node(other)
                self.edges += [(f"{name}~{other}.U", below, above, POINT_METRES),
                               (f"{name}~{other}.D", above, below, POINT_METRES)]
        one = self.network.by_name[name]
        faces, back = ("up", "down") if one["faces"] == "up" else ("down", "up")
        for leg in (one["plus"], one["minus"]):
            self.connections += [
                (self.between(one["stem"], name, faces), self.between(name, leg, faces)),
                (self.between(leg, name, back), self.between(name, one["stem"], back))]

    def between(self, first: str, second: str, direction: str) -> str:
        """Returns the edge from one section to the next, one of which is points."""
        if not self.network.is_point(first):
            return f"{first}.{LETTER[direction]}"
        if not self.network.is_point(second):
            return f"{second}.{LETTER[direction]}"
        below, above = (first, second) if direction == "up" else (second, first)
        return f"{below}~{above}.{LETTER[direction]}"

    def edges_along(self, path: List[str], direction: str) -> List[str]:
        """Returns the edges of a path, in order."""
        found = []
        for name, following in zip(path, list(path[1:]) + [None]):
            if not self.network.is_point(name):
                found.append(f"{name}.{LETTER[direction]}")
            elif following and self.network.is_point(following):
                found.append(self.between(name, following, direction))
        return found

    def texts(self) -> Dict[str, str]:
        """Returns the three files by their names."""
        nodes = "".join(
            f'  <node id="{key}" x="{x:.1f}" y="{y:.1f}" '
            f'type="{"rail_signal" if key in self.signals else "priority"}"/>\n'
            for key, (x, y) in self.nodes.items())
        edges = "".join(
            f'  <edge id="{key}" from="{start}" to="{end}" numLanes="1" speed="20" allow="rail" '
            f'spreadType="center" length="{metres:.1f}"/>\n'
            for key, start, end, metres in self.edges)
        links = "".join(
            f'  <connection from="{start}" to="{end}" fromLane="0" toLane="0"'
            f'{"" if start in self.signalled else UNCONTROLLED}/>\n'
            for start, end in self.connections)
        return {"net.nod.xml": f"<nodes>\n{nodes}</nodes>\n",
                "net.edg.xml": f"<edges>\n{edges}</edges>\n",
                "net.con.xml": f"<connections>\n{links}</connections>\n"}
