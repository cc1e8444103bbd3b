"""Random configurations that pass rules F, one per seed. Their names have all allowed characters,
and some would be changed by a spreadsheet."""

import random
import string

from irvtools.generators import configurations

CHARACTERS = string.ascii_letters + string.digits + "_-"
# spreadsheets' numbers, dates, times, truth values and formulas
CHANGED = """007 0 00 1 101 1-2 1-2-3 2026-11-30 1E5 1e5 1E-5 9E99 12345678901234567890 TRUE FALSE true False
    -5 - -- --1 -A1 -1-2 5- 1- E5 1E JAN-1 MAR1 Mar-12 SEPT2 dec1 1-JAN 30-Nov AM 1A 12 PM 1_2 _1 _
    WAHR falsch VRAI 0x10 1d5 NaN INF May4 mai-3 juil14 01-01-70 1-e-1 5E-""".split()


def name(chance):
    """Returns a name."""
    if chance.random() < 0.4:
        return chance.choice(CHANGED)
    return "".join(chance.choices(CHARACTERS, k=chance.choice([1, 1, 2, 3, 5, 8, 31, 32])))


class Names:
    """The source of a configuration's names."""

    def __init__(self, chance):
        self.chance = chance
        self.all = [name(chance) for _ in range(chance.choice([2, 8, 40]))]

    def one(self):
        """Returns a name."""
        return self.chance.choice(self.all)

    def maybe(self):
        """Returns a name or null."""
        return self.one() if self.chance.random() < 0.7 else None

    def some(self, most):
        """Returns a list of names."""
        return [self.one() for _ in range(self.chance.choice([0, 1, 2, most]))]

    def points(self, most):
        """Returns a list of points."""
        return [{"point": one, "position": self.chance.choice(("plus", "minus"))}
                for one in self.some(most)]


def section(names):
    """Returns a section of either kind."""
    if names.chance.random() < 0.4:
        return configurations.point(names.one(), names.chance.choice(("up", "down")), names.one(), names.one(),
                          names.one())
    return {"name": names.one(), "kind": "linear", "down": names.maybe(), "up": names.maybe(),
            "board_down": names.maybe(), "board_up": names.maybe()}


def route(names, version):
    """Returns a route of a version."""
    found = {"name": names.one(), "source": names.one(), "destination": names.maybe(),
             "path": [names.one(), *names.some(31)], "overlap": names.some(8), "points": names.points(40),
             "conflicts": names.some(names.chance.choice([3, 30, 256]))}
    if version == 2:
        found.update(protecting_points=names.points(8), protecting_boards=names.some(8))
    return found


def configuration(seed):
    """Returns a seed's configuration; its version is the seed's parity."""
    chance = random.Random(f"sheet {seed}")
    names, version = Names(chance), seed % 2 + 1
    return {"version": version,
            "sections": [section(names) for _ in range(chance.choice([1, 2, 5, 12]))],
            "routes": [route(names, version) for _ in range(chance.choice([0, 1, 3, 8]))]}
