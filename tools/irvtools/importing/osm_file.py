"""Reads ways and nodes of an OpenStreetMap file.

It reads the file twice: first the ways, then their nodes. So the memory depends only on the
railway.
"""

import math
import re
from pathlib import Path
from typing import Dict, List, Optional

from irvtools.importing.faults import ImportFault, shown
from irvtools.importing.safe_xml import Reader

TRACKS = ("rail", "light_rail", "subway", "tram", "narrow_gauge", "preserved")
LIMIT_WAY_NODES = 400_000
LIMIT_NODES = 10_000        # of one way; OpenStreetMap's limit is 2000
LIMIT_BESIDE = 200


class Way:
    """A track of the map: its nodes in order and its tags."""

    def __init__(self, key: str, nodes: List[str], tags: Dict[str, str]):
        self.key, self.nodes, self.tags = key, nodes, tags


class Place:
    """A node of a track: its coordinates and its tags."""

    def __init__(self, lat: float, lon: float):
        self.lat, self.lon = lat, lon
        self.tags: Dict[str, str] = {}

    def is_board(self) -> bool:
        """Returns whether a train waits here: a main or combined signal, or a block marker."""
        tags = self.tags
        return tags.get("railway") == "signal" and bool(
            tags.get("railway:signal:main") or tags.get("railway:signal:combined")
            or tags.get("railway:signal:train_protection:type") == "block_marker"
            or tags.get("railway:signal:train_protection") == "block_marker")


def checked_id(reader: Reader, attributes: Dict[str, str], key: str) -> str:
    """Returns an object's id, which has to be an integer."""
    found = attributes.get(key, "")
    if not re.fullmatch(r"-?[0-9]{1,19}", found, re.ASCII):
        raise reader.fault(f"{key}=\"{shown(found)}\" is not an id")
    return found


def is_gone(attributes: Dict[str, str]) -> bool:
    """Returns whether an editor deleted an object."""
    return attributes.get("action") == "delete" or attributes.get("visible") == "false"


class Ways:
    """Reads the track ways."""

    def __init__(self, path: Path):
        self.found: Dict[str, Way] = {}
        self.current: Optional[Way] = None
        self.root, self.count = "", 0
        self.reader = Reader(path, self.start, self.end)
        self.reader.read()
        if self.root != "osm":
            raise ImportFault(f"{path}: line 1: the element <osm> is expected")

    def start(self, name, attributes):
        """Takes an element's start."""
        if name == "nd":
            if self.current:
                self.current.nodes.append(attributes.get("ref", ""))
        elif name == "tag":
            if self.current:
                self.current.tags[attributes.get("k", "")] = attributes.get("v", "")
        elif name == "way":
            self.current = None if is_gone(attributes) else \
                Way(checked_id(self.reader, attributes, "id"), [], {})
        elif name == "relation":
            self.current = None
        self.root = self.root or name

    def end(self, name):
        """Takes an element's end. A track way is kept."""
        if name != "way" or self.current is None:
            return
        way, self.current = self.current, None
        if way.tags.get("railway") not in TRACKS:
            return
        if way.key in self.found:
            raise self.reader.fault(f"way {way.key} is in the file twice")
        if len(way.nodes) > LIMIT_NODES:
            raise self.reader.fault(f"way {way.key} has more than {LIMIT_NODES} nodes")
        for node in way.nodes:
            checked_id(self.reader, {"ref": node}, "ref")
        self.count += len(way.nodes)
        if self.count > LIMIT_WAY_NODES:
            raise self.reader.fault(f"way {way.key}: the tracks have more than {LIMIT_WAY_NODES} "
                                    f"nodes; cut a smaller area out of it")
        self.found[way.key] = way


class Places:
    """Reads the nodes of some ways, and the signals outside them."""

    def __init__(self, path: Path, ways: Dict[str, Way]):
        self.needed = {node for way in ways.values() for node in way.nodes}
        self.found: Dict[str, Place] = {}
        self.beside: Dict[str, Place] = {}
        self.key, self.current = "", None
        self.reader = Reader(path, self.start, self.end)
        self.reader.read()

    def start(self, name, attributes):
        """Takes an element's start."""
        if name == "node":
            self.current = None
            if "lat" in attributes and not is_gone(attributes):
                self.key = attributes.get("id", "")
                self.current = self.place(attributes) if self.key in self.needed else \
                    attributes
        elif name == "tag" and self.current is not None:
            if isinstance(self.current, dict):
                self.take_beside(attributes)
            else:
                self.current.tags[attributes.get("k", "")] = attributes.get("v", "")

    def take_beside(self, attributes):
        """Keeps a signal that is on no track."""
        if attributes.get("k") == "railway" and attributes.get("v") == "signal" and \
                len(self.beside) < LIMIT_BESIDE:
            key = checked_id(self.reader, self.current, "id")
            self.current = self.beside[key] = self.located(self.current)
            self.current.tags["railway"] = "signal"

    def located(self, attributes) -> Place:
        """Returns a node's place."""
        try:
            lat, lon = (float(attributes.get(key, "")) for key in ("lat", "lon"))
        except ValueError:
            lat = lon = math.nan
        if not (abs(lat) <= 89 and abs(lon) <= 180):
            raise self.reader.fault(f"node {self.key}: lat and lon are not degrees on the globe")
        return Place(lat, lon)

    def place(self, attributes) -> Place:
        """Returns a new place for a track's node."""
        if self.key in self.found:
            raise self.reader.fault(f"node {self.key} is in the file twice")
        self.found[self.key] = self.located(attributes)
        return self.found[self.key]

    def end(self, name):
        """Takes an element's end."""
        if name == "node":
            self.current = None
