"""Random networks that break no rule N, the same at each call.

The generator is seeded and hand-written: the seed alone must reproduce a failure.

A network grows from its lower borders. An open end gets a linear section or a point with two
further ends, or two ends meet at a point. Then borders close the ends, sections are shuffled, and
boards placed.
"""

import random

from irvtools.generators import configurations


class Growing:
    """The sections and the open ends so far."""

    def __init__(self, chance):
        self.chance = chance
        self.sections = []
        self.open = []          # each open end's section and the member to fill

    def add(self, section, *ends):
        """Adds a section with its open ends. Returns its name."""
        section["name"] = f"x{len(self.sections)}"
        self.sections.append(section)
        self.open += [(section, end) for end in ends]
        return section["name"]

    def border(self):
        """Adds a section at which the network begins."""
        self.add(configurations.linear("", ".", ".", ".", "."), "up")

    def taken(self, *others):
        """Closes and returns a random open end of a section not in `others`."""
        ends = [end for end in self.open if end[0] not in others]
        end = self.chance.choice(ends)
        self.open.remove(end)
        return end

    def go_on(self, end):
        """Adds a linear section after an end."""
        before, member = end
        section = configurations.linear("", before["name"], ".", ".", ".")
        before[member] = self.add(section, "up")

    def part(self):
        """Adds a point with two legs after an end."""
        before, member = self.taken()
        legs = ["plus", "minus"]
        self.chance.shuffle(legs)
        before[member] = self.add(configurations.point("", "up", before["name"], "", ""), *legs)

    def join(self):
        """Joins two ends at a point."""
        one = self.taken()
        if not any(end[0] is not one[0] for end in self.open):
            self.open.append(one)
            return
        other = self.taken(one[0])
        section = configurations.point("", "down", "", one[0]["name"], other[0]["name"])
        one[0][one[1]] = other[0][other[1]] = self.add(section, "stem")

    def close(self):
        """Closes each open end: a linear section with a lower neighbour becomes a border, any other
        end gets one."""
        for end in self.open:
            section, member = end
            if section["kind"] == "point" or section["down"] is None:
                before = configurations.linear("", section["name"], ".", ".", ".")
                before["name"] = f"x{len(self.sections)}"
                self.sections.append(before)
                section[member] = before["name"]
        self.open = []


def put_boards(sections, chance, share, strict):
    """Places boards on linear sections, on sides with a neighbour: at random, and if `strict` also
    at each border for entering trains."""
    for number, section in enumerate(sections):
        if section["kind"] == "point":
            continue
        is_border = (section["down"] is None) != (section["up"] is None)
        for side in ("down", "up"):
            if section[side] is not None and (is_border and strict or chance.random() < share):
                section["board_" + side] = f"m{number}{side[0]}"


def network(seed):
    """Returns a configuration without routes, and whether each border has its board."""
    chance = random.Random(seed)
    growing = Growing(chance)
    for _ in range(chance.choice([1, 1, 2, 3])):
        growing.border()
    kinds = ("go on",) * chance.choice([1, 2, 6, 12]) + ("part",) * chance.choice([1, 2]) + ("join",) * 2
    for _ in range(chance.choice([1, 4, 8, 16, 32, 48])):
        kind = chance.choice(kinds)
        if kind == "join" and len(growing.open) > 1:
            growing.join()
        elif kind == "part" and len(growing.open) < 12:
            growing.part()
        else:
            growing.go_on(growing.taken())
    growing.close()
    sections = growing.sections
    chance.shuffle(sections)
    strict = chance.random() < 0.7
    put_boards(sections, chance, chance.choice([0.05, 0.3, 0.6, 1]), strict)
    return {"version": 1, "sections": sections, "routes": []}, strict
