"""Connected parts of tracks, and cut segments."""

import math
from typing import List, Set

from irvtools.importing.faults import ImportFault
from irvtools.importing.notes import Notes
from irvtools.importing.tracks import Node, Segment, Tracks


def parts(tracks: Tracks) -> List[Set[str]]:
    """Returns the segments of each connected part: the most branches first, then the greatest
    length."""
    at, left, found = tracks.arms(), dict.fromkeys(tracks.segments), []
    while left:
        first = next(iter(left))
        del left[first]
        part, todo = {first}, [first]
        while todo:
            for node in tracks.segments[todo.pop()].ends:
                for key, _ in at[node]:
                    if key in left:
                        del left[key]
                        part.add(key)
                        todo.append(key)
        found.append(part)

    def size(part):
        """Returns the sort key of a part."""
        nodes = {node for key in part for node in tracks.segments[key].ends}
        branches = sum(len(at[node]) > 2 for node in nodes)
        return (-branches, -sum(tracks.segments[key].metres for key in part), min(part))

    return sorted(found, key=size)


def chosen(tracks: Tracks, number: int, notes: Notes) -> Tracks:
    """Returns part `number`, from 1, and notes the others."""
    found = parts(tracks)
    if not found:
        raise ImportFault(f"{notes.source}: no track is found")
    if not 1 <= number <= len(found):
        raise ImportFault(f"--part {number}: {notes.source} has parts 1 to {len(found)}")
    for place, part in enumerate(found, 1):
        if place != number:
            thing = tracks.segments[min(part)].thing
            metres = sum(tracks.segments[key].metres for key in part)
            notes.add("left out", thing, f"part {place}: {len(part)} segments, {metres:.0f} m, "
                                         f"not connected to part {number}")
    return tracks.kept(found[number - 1])


def cut(tracks: Tracks, key: str, why: str, notes: Notes) -> None:
    """Cuts a segment in its middle. Its halves end there."""
    whole = tracks.segments.pop(key)
    for end, letter in ((0, "a"), (1, "b")):
        half, middle = f"{key}~{letter}", f"cut {key} {end}"
        away = whole.away[end]
        tracks.segments[half] = Segment((whole.ends[end], middle), whole.metres / 2,
                                        (away, away + math.pi), whole.thing, whole.name)
        tracks.nodes[middle] = Node(whole.thing)
        tracks.nodes[middle].end = f"cut: {why}"
        if (key, end) in tracks.boards:
            tracks.boards[half, 0] = tracks.boards.pop((key, end))
        node = tracks.nodes[whole.ends[end]]
        if node.ways is not None:
            node.ways = {frozenset((half, 0) if arm == (key, end) else arm for arm in way)
                         for way in node.ways}
        if node.normal == (key, end):
            node.normal = (half, 0)
    notes.add("cut", whole.thing, why)


def cut_named(tracks: Tracks, things: List[str], notes: Notes) -> None:
    """Cuts the longest segment of each named object."""
    for thing in things:
        keys = [key for key, segment in tracks.segments.items()
                if thing in (segment.thing, segment.thing.split()[-1])]
        if not keys:
            raise ImportFault(f"--cut {thing}: the chosen part has no track with this id")
        cut(tracks, max(keys, key=lambda key: (tracks.segments[key].metres, key)),
            "--cut was asked for", notes)
