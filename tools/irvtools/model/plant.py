"""A configuration as a plant: sections, boards and routes by number, as docs/reference/model.md
counts them.

A network that breaks rules is read too, to draw its plan. An unknown name is `None`; a duplicate
name means the first. The events of `events.py` need a plant that `irv check --columns free` answers
with `clean`.
"""

OPPOSITE = {"down": "up", "up": "down"}
OTHER_LEG = {"plus": "minus", "minus": "plus"}


class Section:
    """A linear section or points. `ends` are its neighbours, each with side, leg and name."""

    def __init__(self, number, member):
        self.number = number
        self.name = member["name"]
        self.is_point = member["kind"] == "point"
        self.faces = member.get("faces")
        if self.is_point:
            behind = OPPOSITE[self.faces]
            self.ends = [(behind, "stem", member["stem"]), (self.faces, "plus", member["plus"]),
                         (self.faces, "minus", member["minus"])]
        else:
            self.ends = [(side, "line", member[side]) for side in ("down", "up")
                         if member[side] is not None]
        self.neighbours = {}    # by leg, or by side for a linear section: the number, or None

    def key_of(self, side, leg):
        """Returns the key of an end in `neighbours`."""
        return leg if self.is_point else side


class Board:
    """A marker board: its section and the direction of its trains."""

    def __init__(self, number, name, section, direction):
        self.number, self.name, self.section, self.direction = number, name, section, direction


class Route:
    """A row of the table, by numbers; an unknown name is `None`."""

    def __init__(self, number, member, plant):
        self.number, self.member, self.name = number, member, member["name"]
        sections, boards = plant.section_named, plant.board_named
        self.source = boards.get(member["source"])
        self.destination = boards.get(member["destination"])
        self.path = [sections.get(name) for name in member["path"]]
        self.overlap = [sections.get(name) for name in member["overlap"]]
        self.points = listed(member["points"], sections)
        self.protecting_points = listed(member.get("protecting_points", []), sections)
        self.protecting_boards = [boards.get(name)
                                  for name in member.get("protecting_boards", [])]
        self.conflicts = [plant.route_named.get(name) for name in member["conflicts"]]
        self.beside = self.overlap + [point for point, _ in self.protecting_points]
        self.locked = self.path + self.beside
        self.wanted = self.points + self.protecting_points
        self.direction = None if self.source is None else plant.boards[self.source].direction


def listed(members, sections):
    """Returns the points of a list with their positions."""
    return [(sections.get(member["point"]), member["position"]) for member in members]


def first_named(things):
    """Returns the number of the first of each name."""
    numbers = {}
    for number, thing in enumerate(things):
        numbers.setdefault(thing if isinstance(thing, str) else thing.name, number)
    return numbers


class Plant:
    """A network and its table."""

    def __init__(self, document):
        self.version = document["version"]
        self.sections = [Section(number, member)
                         for number, member in enumerate(document["sections"])]
        self.section_named = first_named(self.sections)
        for section in self.sections:
            for side, leg, name in section.ends:
                section.neighbours[section.key_of(side, leg)] = self.section_named.get(name)
        self.boards = []
        self.board_on = {}      # the board's number, by section and direction
        for section, member in zip(self.sections, document["sections"]):
            for direction in ("down", "up"):
                self.add_board(section, direction, member.get("board_" + direction))
        self.board_named = first_named(self.boards)
        self.route_named = first_named([member["name"] for member in document["routes"]])
        self.routes = [Route(number, member, self)
                       for number, member in enumerate(document["routes"])]
        self.points = [section.number for section in self.sections if section.is_point]
        # the sections next to each section in each direction, and the board
        self.nexts = {(x, side): self.next_to(x, side)
                      for x in range(len(self.sections)) for side in OPPOSITE}
        # each border, with the inward direction
        self.inward = {x: side for x, section in enumerate(self.sections) for side in OPPOSITE
                       if not section.is_point and self.nexts[x, side]
                       and not self.nexts[x, OPPOSITE[side]]}

    def add_board(self, section, direction, name):
        """Adds a board, if there is one."""
        if name is not None:
            self.board_on[section.number, direction] = len(self.boards)
            self.boards.append(Board(len(self.boards), name, section.number, direction))

    def next_to(self, x, side):
        """Returns the sections next to a section on a side that names it; for facing points plus,
        then minus."""
        return [self.section_named[name] for at, _, name in self.sections[x].ends
                if at == side and name in self.section_named]

    def name(self, x):
        """Returns a section's name."""
        return self.sections[x].name

    def leg_to(self, x, other):
        """Returns the leg of points at which another section is, if any."""
        for leg, neighbour in self.sections[x].neighbours.items():
            if neighbour == other:
                return leg
        return None
