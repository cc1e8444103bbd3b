"""Reads SUMO's driveways, and the trains that arrived."""

from pathlib import Path
from typing import Dict, List, Optional, Set

from irvtools.importing.safe_xml import Reader
from irvtools.sumo.net_files import LETTER, NetFiles
from irvtools.sumo.ways import Way


class Driveway:
    """A driveway: link, way from a board, and the lanes and links that must be free."""

    def __init__(self, link: str, start: str):
        self.link, self.start = link, start
        self.lanes: Dict[str, Set[str]] = {"forward": set(), "bidi": set(), "flank": set()}
        self.path: List[str] = []
        self.links: Set[str] = set()

    def excludes(self, other: "Driveway") -> bool:
        """Returns whether SUMO's lists of this driveway keep trains on the other out."""
        wanted = self.lanes["forward"] | self.lanes["bidi"] | self.lanes["flank"]
        return bool(wanted & other.lanes["forward"]) or other.link in self.links


def section_of(lane: str) -> Optional[str]:
    """Returns a lane's section, or `None` for a lane between two points or at a joint."""
    if lane.startswith(":"):
        node = lane[1:].rsplit("_", 2)[0]
        return node[3:] if node.startswith("pt.") else None
    edge = lane.rsplit("_", 1)[0]
    return None if "~" in edge else edge.rsplit(".", 1)[0]


class Blocks:
    """Reads a file of driveways."""

    def __init__(self, path: Path):
        self.found: List[Driveway] = []
        self.signal = self.link = self.start_edge = ""
        Reader(path, self.start, lambda name: None).read()

    def start(self, name, attributes):
        """Takes the start of an element."""
        if name == "railSignal":
            self.signal = attributes.get("id", "")
        elif name == "link":
            self.link = f"{self.signal}_{attributes.get('linkIndex', '')}"
            self.start_edge = attributes.get("from", "").rsplit("_", 1)[0]
        elif name == "driveWay":
            self.found.append(Driveway(self.link, self.start_edge))
        elif name in ("forward", "bidi", "flank") and self.found:
            lanes = attributes.get("lanes", "").split()
            self.found[-1].lanes[name] |= set(lanes)
            if name == "forward":
                self.found[-1].path = [one for one in map(section_of, lanes) if one]
        elif name == "conflictLinks" and self.found:
            self.found[-1].links |= set(attributes.get("signals", "").split())


def driveways(path: Path, files: NetFiles) -> Dict[Way, List[Driveway]]:
    """Returns the driveways from boards, by their ways."""
    board_of = {f"{name}.{LETTER[direction]}": board
                for board, (name, direction) in files.network.place_of.items()}
    found: Dict[Way, List[Driveway]] = {}
    for one in Blocks(path).found:
        if one.start in board_of:
            found.setdefault((board_of[one.start], tuple(one.path)), []).append(one)
    return found


def arrived(path: Path) -> Set[str]:
    """Returns the names of the trains that arrived."""
    found: Set[str] = set()

    def start(name, attributes):
        """Takes the start of an element."""
        if name == "tripinfo" and float(attributes.get("arrival", "-1")) >= 0:
            found.add(attributes.get("id", ""))

    Reader(path, start, lambda name: None).read()
    return found
