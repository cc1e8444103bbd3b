"""The draft configuration of tracks, with its notes."""

import json
from typing import Dict, List, Optional, Tuple

from irvtools.importing import boards as placing
from irvtools.importing.directions import directed
from irvtools.importing.faults import ImportFault
from irvtools.importing.naming import board_names, section_names, things
from irvtools.importing.notes import Notes
from irvtools.importing.parts import chosen, cut_named
from irvtools.importing.sections import Key, Linear, Sections
from irvtools.importing.tracks import Tracks

LIMIT_SECTIONS = 256
LIMIT_SEGMENTS = 20_000


class Wishes:
    """The caller's wishes for an import. A length of `None` is the format's default."""

    def __init__(self, signals="both", part=1, cuts=(), cut_loops=False,
                 board_metres: Optional[float] = None, absorb_metres: Optional[float] = None):
        self.signals, self.part = signals, part
        self.cuts, self.cut_loops = list(cuts), cut_loops
        self.board_metres, self.absorb_metres = board_metres, absorb_metres


def note_sections(sections: Sections, names: Dict[Key, str], notes: Notes) -> None:
    """Notes the origin of each section and point, and the track ends."""
    guessed = 0
    for one in sections.linear():
        notes.add("section", things(sections, one), f"{one.metres:.0f} m", names[one.key])
    for point in sections.points():
        notes.add("point", point.node.thing, f"faces {point.faces}; plus leg: {point.why}",
                  names[point.key])
        guessed += point.why != "the data"
    if guessed:
        notes.add("guessed", None, f"{guessed} points: the data does not say which leg is plus; "
                                   f"the straighter leg is taken")
    for key, side, node in sections.ends:
        if key in names:
            notes.add("end", node.thing, f"the track ends {side}: "
                                         f"{node.end or 'the data ends there'}", names[key])


def note_crossings(sections: Sections, names: Dict[Key, str], notes: Notes) -> None:
    """Notes what each crossing became, and its surplus ways."""
    for one in sections.crossings:
        first, second = (names[key] for key in one.points)
        text = f"{one.kind}, as the two points {first} and {second}, stem to stem"
        if one.missing:
            text += "; drop the routes that want " + " or ".join(
                f"{first} {below} with {second} {above}" for below, above in one.missing) + \
                ": no track is there"
        notes.add("crossing", one.node.thing, text, first)


def note_changes(sections: Sections, absorbed: List[Linear], alone: List[Linear],
                 names: Dict[Key, str], notes: Notes) -> None:
    """Notes the sections that are absorbed or isolated."""
    for one in absorbed:
        notes.add("absorbed", things(sections, one), f"{one.metres:.0f} m, part of the points "
                  f"{names[one.down]} and {names[one.up]}")
    for one in alone:
        notes.add("left out", things(sections, one), "joined with nothing (rule N6)")


def member(one, names: Dict[Key, str], boards: Dict[Tuple[Key, str], str]) -> dict:
    """Returns a section in the form of the configuration."""
    def named(key):
        """Returns a section's name, or `None`."""
        return None if key is None else names[key]
    if isinstance(one, Linear):
        return {"name": names[one.key], "kind": "linear", "down": named(one.down),
                "up": named(one.up), "board_down": boards.get((one.key, "down")),
                "board_up": boards.get((one.key, "up"))}
    return {"name": names[one.key], "kind": "point", "faces": one.faces, "stem": named(one.stem),
            "plus": named(one.plus), "minus": named(one.minus)}


def draft(tracks: Tracks, wishes: Wishes, notes: Notes) -> dict:
    """Returns the configuration, without routes, of one part."""
    part = chosen(tracks, wishes.part, notes)
    if wishes.signals == "rule":
        for board in part.boards.values():
            notes.add("left out", board.thing, "a board of the data: --signals rule")
        part.boards = {}
    cut_named(part, wishes.cuts, notes)
    if len(part.segments) > LIMIT_SEGMENTS:
        raise ImportFault(f"{part.segments[min(part.segments)].thing}: the part with this object "
                          f"has {len(part.segments)} segments, and {LIMIT_SEGMENTS} is the "
                          f"limit; choose a smaller area")
    sections = Sections(part, directed(part, wishes.cut_loops, notes))
    absorbed = sections.absorb(wishes.absorb_metres or 0.0)
    alone = sections.drop_alone()
    if not sections.all:
        raise ImportFault(f"{part.segments[min(part.segments)].thing}: a track without points "
                          f"and boards is one section, and one section is no network")
    if len(sections.all) > LIMIT_SECTIONS:
        raise ImportFault(f"{part.segments[min(part.segments)].thing}: the part with this object "
                          f"has {len(sections.all)} sections, and {LIMIT_SECTIONS} is the "
                          f"limit; choose a smaller area")
    boards = placing.placed(sections, wishes.signals, wishes.board_metres or 0.0, notes)
    names = section_names(sections, notes)
    named_boards = board_names(boards, names, notes)
    note_changes(sections, absorbed, alone, names, notes)
    note_crossings(sections, names, notes)
    note_sections(sections, names, notes)
    return {"version": 2, "sections": [member(one, names, named_boards)
                                       for one in sections.all.values()], "routes": []}


def text_of(configuration: dict) -> str:
    """Returns a configuration as a text, one section or route per line."""
    rows = {key: ",\n  ".join(json.dumps(one) for one in configuration[key])
            for key in ("sections", "routes")}
    return (f'{{"version": {configuration["version"]},\n "sections": [\n  {rows["sections"]}],\n'
            f' "routes": [{rows["routes"]}]}}\n')
