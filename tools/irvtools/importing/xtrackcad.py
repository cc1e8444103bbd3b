"""Reads tracks from an XTrackCAD layout (`.xtc`).

Lengths in inches of the model are scaled to metres. A turnout's paths say between which of its ends
a train can run.
"""

import math
import re
from pathlib import Path
from typing import Dict, FrozenSet, List, Optional, Set, Tuple

from irvtools.importing.bytes_of_file import chunks
from irvtools.importing.faults import ImportFault, shown
from irvtools.importing.notes import Notes
from irvtools.importing.tracks import Segment, Tracks

RATIOS = {"HO": 87.1, "OO": 76.2, "N": 160.0, "Z": 220.0, "O": 48.0, "S": 64.0, "TT": 120.0,
          "G": 22.5, "HOn3": 87.1, "HOm": 87.1, "O16": 48.0}
KINDS = ("STRAIGHT", "CURVE", "JOINT", "TURNOUT", "TURNTABLE", "BEZIER", "CORNU", "HELIX",
         "BZRTRK", "CSNP")
INCH = 0.0254
CLOSE = 0.1                 # inches from a path's end to its turnout's end
LIMIT_LINE = 1 << 16
MOST_ENDS = 4

Place = Tuple[float, float]


class End:
    """An end of a track: the joined track, its place and its angle in degrees."""

    def __init__(self, other: Optional[str], place: Place, angle: float):
        self.other, self.place, self.angle = other, place, angle


class Track:
    """A track or turnout of the layout. `paths` are lists of segment numbers, by name."""

    def __init__(self, kind: str, key: str, line: int):
        self.kind, self.key, self.line = kind, key, line
        self.ends: List[End] = []
        self.paths: List[Tuple[str, List[int]]] = []
        self.pieces: List[Tuple[Place, Place]] = []
        self.origin: Optional[Tuple[float, float, float]] = None


class Layout:
    """Reads a file's tracks line by line."""

    def __init__(self, path: Path):
        self.path, self.line, self.ratio = path, 0, RATIOS["HO"]
        self.scale = None
        self.tracks: Dict[str, Track] = {}
        self.current: Optional[Track] = None
        for text in self.lines():
            self.line += 1
            self.take(text)
        if not self.tracks:
            raise ImportFault(f"{path}: no track: no line begins with {', '.join(KINDS[:4])}")

    def lines(self):
        """Yields the lines as texts."""
        rest = b""
        for chunk in chunks(self.path):
            whole, rest = (rest + chunk).rpartition(b"\n")[::2] if b"\n" in chunk else \
                (b"", rest + chunk)
            if len(rest) > LIMIT_LINE:
                raise self.fault(f"a line of more than {LIMIT_LINE} bytes")
            if whole:
                yield from whole.decode("utf-8", "replace").split("\n")
        if rest:
            yield rest.decode("utf-8", "replace")

    def fault(self, text: str) -> ImportFault:
        """Returns a fault at the current line."""
        return ImportFault(f"{self.path}: line {self.line}: {text}")

    def number(self, text: str) -> float:
        """Returns a number of the current line."""
        try:
            found = float(text)
        except ValueError:
            found = math.nan
        if not abs(found) < 1e9:
            raise self.fault(f"\"{shown(text)}\" is not a number")
        return found

    def take(self, text: str) -> None:
        """Takes a line."""
        words = text.split()
        if not words:
            return
        if words[0] == "SCALE" and len(words) > 1:
            self.scale = words[1]
            self.ratio = RATIOS.get(words[1], RATIOS["HO"])
        elif re.match("[A-Z]", text):
            self.current = None
            if words[0] in KINDS:
                self.begin(words, text)
        elif self.current is not None:
            self.take_part(words, text)

    def begin(self, words: List[str], text: str) -> None:
        """Begins a track."""
        key = words[1] if len(words) > 1 else ""
        if not re.fullmatch("[0-9]{1,9}", key, re.ASCII):
            raise self.fault(f"{words[0]} has no number")
        if key in self.tracks:
            raise self.fault(f"track {key} is in the file twice")
        self.current = self.tracks[key] = Track(words[0], key, self.line)
        if words[0] == "TURNOUT":
            before = text.partition('"')[0].split()
            if len(before) < 6:
                raise self.fault(f"track {key}: a TURNOUT without a place")
            x, y, _, angle = map(self.number, before[-4:])
            self.current.origin = (x, y, angle)

    def take_part(self, words: List[str], text: str) -> None:
        """Takes a line of the current track."""
        kind = words[0]
        if kind.startswith("END"):
            self.current = None
        elif kind in ("T", "T4", "E", "E4"):
            skip = 1 if kind[0] == "E" else 2
            if len(words) < skip + 3:
                raise self.fault(f"track {self.current.key}: an end without a place")
            x, y, angle = map(self.number, words[skip:skip + 3])
            self.current.ends.append(End(words[1] if skip == 2 else None, (x, y), angle))
        elif kind == "P" and self.current.origin:
            found = re.match(r'\s*P\s+"(.*?)"\s*(.*)', text)
            if found:
                self.current.paths.append((found[1], [int(self.number(word))
                                                      for word in found[2].split()]))
        elif kind in ("S", "C") and self.current.origin:
            self.current.pieces.append(self.piece(kind, [self.number(word) for word in words[1:]
                                                         if re.fullmatch(r"-?[\d.]+", word)]))

    def piece(self, kind: str, values: List[float]) -> Tuple[Place, Place]:
        """Returns the two ends of a turnout's straight or curved piece."""
        if len(values) < (6 if kind == "S" else 7):
            raise self.fault(f"track {self.current.key}: a piece without its ends")
        if kind == "S":
            return (values[-4], values[-3]), (values[-2], values[-1])
        radius, x, y, start, swing = values[-5:]
        return tuple((x + abs(radius) * math.sin(math.radians(angle)),
                      y + abs(radius) * math.cos(math.radians(angle)))
                     for angle in (start, start + swing))


def end_near(track: Track, place: Place) -> Optional[int]:
    """Returns the number of the turnout's end at a place in its coordinates, or `None`."""
    x, y, angle = track.origin
    sin, cos = math.sin(math.radians(angle)), math.cos(math.radians(angle))
    there = (x + place[0] * cos + place[1] * sin, y - place[0] * sin + place[1] * cos)
    near = [(math.dist(there, end.place), number) for number, end in enumerate(track.ends)]
    distance, number = min(near)
    return number if distance < CLOSE else None


def way_of(track: Track, numbers: List[int]) -> Optional[Tuple[int, int]]:
    """Returns the two ends that a list of pieces joins, or `None` if not found."""
    if not numbers or any(not 1 <= abs(one) <= len(track.pieces) for one in numbers):
        return None
    pieces = [track.pieces[abs(one) - 1] for one in (numbers[0], numbers[-1])]
    first, last = ([end_near(track, place) for place in piece] for piece in pieces)
    if len(numbers) == 1:
        found = first
    else:
        found = [next((one for one in piece if one is not None), None) for piece in (first, last)]
    return None if None in found or found[0] == found[1] else (found[0], found[1])


def ways_of(track: Track) -> Tuple[Optional[Set[FrozenSet[int]]], Optional[int]]:
    """Returns the pairs of ends between which a train can run, and the plus leg's end of a
    three-end turnout. Either is `None` if the paths do not say it."""
    ways, normal = set(), None
    for name, path in track.paths:
        parts = " ".join(map(str, path)).split(" 0 ")
        for part in parts:
            way = way_of(track, [int(word) for word in part.split()])
            if way is None:
                return None, None
            ways.add(frozenset(way))
            if name == "Normal" and len(parts) == 1 and len(track.ends) == 3:
                normal = way
    if {end for way in ways for end in way} != set(range(len(track.ends))):
        return None, None
    stems = [end for end in range(len(track.ends)) if sum(end in way for way in ways) > 1]
    plus = None
    if normal and len(stems) == 1:
        plus = normal[0] if normal[1] == stems[0] else normal[1]
    return ways, plus


class Builder:
    """Makes segments and nodes from a layout's tracks."""

    def __init__(self, layout: Layout, notes: Notes):
        self.layout, self.notes, self.tracks = layout, notes, Tracks()
        self.unit = INCH * layout.ratio
        for track in layout.tracks.values():
            self.add(track)

    def joint(self, track: Track, number: int) -> str:
        """Returns the key of the node at a track's end."""
        end, key = track.ends[number], f"e{track.key}_{number}"
        thing = f"track {track.key}"
        other = self.layout.tracks.get(end.other or "")
        if other is not None:
            first, second = sorted((track.key, other.key), key=int)
            key = f"j{first}_{second}"
            if sum(one.other == end.other for one in track.ends) > 1:
                key += f"_{round(end.place[0])}_{round(end.place[1])}"
            thing = f"joint {first}-{second}"
        self.tracks.node(key, thing)
        return key

    def add(self, track: Track) -> None:
        """Adds a track's segments."""
        count = len(track.ends)
        if track.kind == "TURNTABLE" or count == 1:
            self.add_ended(track)
        elif count == 2:
            one, two = track.ends
            metres = max(0.1, math.dist(one.place, two.place)) * self.unit
            away = (heading(one) + math.pi, heading(two) + math.pi)
            self.segment(track.key, (self.joint(track, 0), self.joint(track, 1)), metres, away,
                         track)
        elif count > MOST_ENDS:
            raise ImportFault(f"{self.layout.path}: line {track.line}: track {track.key}: a "
                              f"{track.kind} of {count} ends; at most {MOST_ENDS} can be imported")
        elif count:
            self.add_turnout(track)

    def segment(self, key: str, ends, metres: float, away, track: Track) -> None:
        """Adds a segment."""
        self.tracks.segments[key] = Segment(ends, metres, away, f"track {track.key}")

    def add_ended(self, track: Track) -> None:
        """Adds a short segment at each end of a turntable or a bumper. The track ends there."""
        why = "turntable" if track.kind == "TURNTABLE" else "bumper"
        for number, end in enumerate(track.ends):
            key = f"x{track.key}_{number}"
            self.tracks.node(key, f"track {track.key}").end = why
            self.segment(f"{track.key}_{number}", (key, self.joint(track, number)), self.unit,
                         (heading(end), heading(end) + math.pi), track)
        if track.kind == "TURNTABLE" and track.ends:
            self.notes.add("cut", f"track {track.key}", f"a turntable: the {len(track.ends)} "
                                                        f"tracks that meet it end there")

    def add_turnout(self, track: Track) -> None:
        """Adds a node for a turnout, and a short segment to each end."""
        middle = f"n{track.key}"
        node = self.tracks.node(middle, f"track {track.key}")
        for number, end in enumerate(track.ends):
            self.segment(f"{track.key}_{number}", (middle, self.joint(track, number)), self.unit,
                         (heading(end), heading(end) + math.pi), track)
        ways, plus = ways_of(track)
        if ways is None:
            self.notes.add("guessed", f"track {track.key}", "the paths of the turnout are not "
                           "understood: its ways are taken by the angles of its ends")
            return
        node.ways = {frozenset((f"{track.key}_{number}", 0) for number in way) for way in ways}
        if plus is not None:
            node.normal = (f"{track.key}_{plus}", 0)


def heading(end: End) -> float:
    """Returns the bearing in which the track leaves an end outwards."""
    return math.radians(90 - end.angle)


def read_xtrackcad(path: Path, notes: Notes) -> Tracks:
    """Returns the tracks of an XTrackCAD layout."""
    layout = Layout(path)
    if layout.scale not in RATIOS:
        notes.add("guessed", None, f"the scale \"{shown(str(layout.scale))}\" is not known: "
                                   f"lengths are those of HO")
    return Builder(layout, notes).tracks
