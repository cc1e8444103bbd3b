"""The broken network rules N1 to N8 in words: what the network has, and should have. Each function
takes a plant and the place's number, and yields sentences."""

from __future__ import annotations

from typing import Iterator

from irvtools.model.plant import OPPOSITE, Plant
from irvtools.model.phrases import join


def same_section(plant: Plant, i: int) -> Iterator[str]:
    """N1."""
    section = plant.sections[i]
    yield (f"Section number {i} is called {section.name}, like section number "
           f"{plant.section_named[section.name]}. Each section needs its own name.")


def same_board(plant: Plant, i: int) -> Iterator[str]:
    """N2."""
    board = plant.boards[i]
    first = plant.boards[plant.board_named[board.name]]
    yield (f"Two boards are called {board.name}: the one on section {plant.name(first.section)} "
           f"for trains "
           f"that run {first.direction}, and the one on section {plant.name(board.section)} for "
           f"trains that "
           f"run {board.direction}. Each board needs its own name.")


def wrong_neighbour(plant: Plant, i: int) -> Iterator[str]:
    """N3."""
    section = plant.sections[i]
    for side, leg, name in section.ends:
        if name == section.name and plant.section_named[name] == i:
            yield f"Section {section.name} names itself as its neighbour ({end_words(side, leg)})."
        elif name not in plant.section_named:
            yield (f"Section {section.name} names {name} as its neighbour "
                   f"({end_words(side, leg)}), but no "
                   "section has that name.")


def end_words(side, leg):
    """Returns an end of a section, in words."""
    return f"on its {side} side" if leg == "line" else f"{leg}, on its {side} side"


def same_neighbour(plant: Plant, i: int) -> Iterator[str]:
    """N4."""
    section = plant.sections[i]
    names = [name for _, _, name in section.ends]
    for name in dict.fromkeys(names):
        if names.count(name) > 1:
            ends = [end_words(side, leg) for side, leg, other in section.ends if other == name]
            yield (f"Section {section.name} names {name} as its neighbour more than once: "
                   f"{join(ends)}. Its "
                   "neighbours must differ.")


def not_named_back(plant: Plant, i: int) -> Iterator[str]:
    """N5."""
    section = plant.sections[i]
    for side, leg, name in section.ends:
        other = plant.section_named.get(name)
        if other is None or other == i:
            continue
        back = [(at, leg_) for at, leg_, word in plant.sections[other].ends
                if plant.section_named.get(word) == i]
        if len(back) == 1 and back[0][0] == OPPOSITE[side]:
            continue
        there = f"does not name {section.name}" if not back else \
            f"names {section.name} {join(end_words(*end) for end in back)}"
        yield (f"Section {section.name} names {name} as its neighbour ({end_words(side, leg)}), "
               f"but {name} "
               f"{there}. It should name it once, on its {OPPOSITE[side]} side.")


def alone(plant: Plant, i: int) -> Iterator[str]:
    """N6."""
    yield f"Section {plant.name(i)} has no neighbour. A linear section needs one on at least one side."


def returns(plant: Plant, i: int) -> Iterator[str]:
    """N7."""
    walk = walk_back(plant, i)
    names = join([plant.name(x) for x in walk], "and then")
    yield (f"From section {plant.name(i)} a train that runs up comes back to it: {names}. A "
           f"network must not "
           "have a loop in one direction.")


def walk_back(plant: Plant, i: int) -> list[int]:
    """Returns a shortest walk up from a section to itself."""
    before, queue = {}, [i]
    for x in queue:
        for y in plant.next_to(x, "up"):
            if y not in before:
                before[y] = x
                queue.append(y)
    walk = [i]
    while i in before and (len(walk) == 1 or walk[-1] != i):
        walk.append(before[walk[-1]])
    return walk[::-1]


def board_at_end(plant: Plant, i: int) -> Iterator[str]:
    """N8."""
    section = plant.sections[i]
    for side in OPPOSITE:
        board = plant.board_on.get((i, side))
        if board is not None and not any(at == side for at, _, _ in section.ends):
            yield (f"Section {section.name} has board {plant.boards[board].name} for trains that "
                   f"run {side}, but "
                   f"no neighbour on its {side} side: no train continues from there.")
