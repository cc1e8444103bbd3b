"""Names of sections, points and boards: those of the data if the format allows them."""

import re
from typing import Dict, List, Optional, Set, Tuple

from irvtools.importing.boards import Placed
from irvtools.importing.faults import shown
from irvtools.importing.notes import Notes
from irvtools.importing.sections import Key, Linear, Sections

LONGEST = 32


def is_name(text: Optional[str]) -> bool:
    """Returns whether a text is a valid name: 1 to 32 of `A-Z a-z 0-9 _ -`."""
    return bool(text) and re.fullmatch(r"[A-Za-z0-9_-]{1,32}", text) is not None


class Names:
    """Unique names."""

    def __init__(self, notes: Notes):
        self.notes = notes
        self.used: Set[str] = set()

    def free(self, wanted: str) -> str:
        """Returns an unused name similar to `wanted`."""
        base = re.sub(r"[^A-Za-z0-9_-]", "_", wanted)[:LONGEST]
        name, number = base, 2
        while name in self.used:
            name = f"{base[:LONGEST - 5]}_{number}"
            number += 1
        self.used.add(name)
        return name

    def give(self, own: Optional[str], otherwise: str, thing: str) -> str:
        """Returns the data's own name if it is valid and unused, otherwise a name made from an id."""
        if own and is_name(own) and own not in self.used:
            self.used.add(own)
            return own
        name = self.free(otherwise)
        if own:
            why = "is used already" if is_name(own) else "is not allowed as a name"
            self.notes.add("guessed", thing, f"the data's name \"{shown(own)}\" {why}", name)
        return name


def own_name(sections: Sections, one: Linear) -> Optional[str]:
    """Returns the name that all tracks of a section have in the data, or `None`."""
    found = {sections.tracks.segments[key].name for key in one.chain}
    return found.pop() if len(found) == 1 else None


def things(sections: Sections, one: Linear) -> str:
    """Returns the objects of a section without duplicates, from down to up."""
    found = dict.fromkeys(sections.tracks.segments[key].thing for key in one.chain)
    return ", ".join(found)


def section_names(sections: Sections, notes: Notes) -> Dict[Key, str]:
    """Returns each section's name."""
    names, found = Names(notes), {}
    for point in sections.points():
        last = point.node.thing.split()[-1]
        found[point.key] = names.give(point.node.name, f"p{last}", point.node.thing)
    for one in sections.linear():
        last = min(one.chain, key=lambda key: (len(key), key))
        found[one.key] = names.give(own_name(sections, one), f"t{last}", things(sections, one))
    return found


def board_names(boards: List[Placed], of_section: Dict[Key, str],
                notes: Notes) -> Dict[Tuple[Key, str], str]:
    """Returns each board's name, and notes its origin."""
    names, found = Names(notes), {}
    for one in sorted(boards, key=lambda board: bool(board.rule)):
        section = of_section[one.key]
        if one.rule:
            name = names.free(f"{section[:LONGEST - 2]}-{one.direction[0].upper()}")
            notes.add("board", None, f"on {section}, {one.direction}: {one.rule}", name, by="rule")
        else:
            thing = one.board.thing
            name = names.give(one.board.name, f"m{thing.split()[-1]}", thing)
            notes.add("board", thing, f"on {section}, {one.direction}", name, by="data")
        found[one.key, one.direction] = name
    return found
