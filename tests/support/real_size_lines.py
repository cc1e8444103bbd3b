"""Lines of real size for the random search: single and double tracks with passing loops,
crossovers, ladders and a terminus, built from the lower end up. `irv table` adds their routes.

Each numbered track has an open end for the next piece.
"""

import json
import subprocess

from irvtools.generators.configurations import linear, point

BOTH, DOWN, UP, NONE = ("down", "up"), ("down",), ("up",), ()


class Line:
    """A network that grows on its tracks."""

    def __init__(self, tracks):
        self.sections, self.boards = [], 0
        self.ends = []          # each track's open section and member
        for _ in range(tracks):
            self.border("up")

    def named(self, section, letter):
        """Adds a section under its own name, and returns the name."""
        section["name"] = f"{letter}{len(self.sections)}"
        self.sections.append(section)
        return section["name"]

    def board(self):
        """Returns a new board name."""
        self.boards += 1
        return f"B{self.boards}"

    def border(self, side):
        """Begins a track, with a board for entering trains."""
        section = linear("", ".", ".", ".", ".")
        section["board_" + side] = self.board()
        self.named(section, "t")
        self.ends.append((section, side))
        return section

    def join(self, track, name):
        """Connects a track's open end to `name`. Returns the section there."""
        section, member = self.ends[track]
        section[member] = name
        return section["name"]

    def plain(self, track, boards=NONE):
        """Adds a linear section to a track, with boards for these directions."""
        section = linear("", self.ends[track][0]["name"], ".", ".", ".")
        self.join(track, self.named(section, "t"))
        for side in boards:
            section["board_" + side] = self.board()
        self.ends[track] = section, "up"

    def end(self, track):
        """Ends a track at a border, with a board for entering trains."""
        before = self.ends[track][0]["name"]
        section = self.border("down")
        self.ends.pop()
        section["down"] = before
        self.join(track, section["name"])

    def part(self, track, leg="plus"):
        """Adds a point that starts a new track. The old track continues over `leg`."""
        other = "minus" if leg == "plus" else "plus"
        section = point("", "up", self.ends[track][0]["name"], ".", ".")
        self.join(track, self.named(section, "p"))
        self.ends[track] = section, leg
        self.ends.append((section, other))
        return len(self.ends) - 1

    def meet(self, track, other, leg="plus"):
        """Joins another track to a track at a point."""
        section = point("", "down", ".", ".", ".")
        name = self.named(section, "p")
        section[leg] = self.join(track, name)
        section["minus" if leg == "plus" else "plus"] = self.join(other, name)
        self.ends[track] = section, "stem"
        del self.ends[other]

    def crossover(self, track, other):
        """Connects a track to another for up trains."""
        first = point("", "up", self.ends[track][0]["name"], ".", ".")
        second = point("", "down", ".", self.ends[other][0]["name"], ".")
        self.join(track, self.named(first, "p"))
        self.join(other, self.named(second, "p"))
        first["minus"], second["minus"] = second["name"], first["name"]
        self.ends[track], self.ends[other] = (first, "plus"), (second, "stem")

    def loop(self, track, platforms):
        """Adds a station with platforms, ladders, and boards in both directions."""
        self.plain(track, BOTH)
        tracks = [track]
        while len(tracks) < platforms:
            tracks.append(self.part(tracks[-1], "plus"))
        for one in tracks:
            self.plain(one, BOTH)
        while len(tracks) > 1:
            last = tracks.pop()
            self.meet(tracks[-1], last)
        self.plain(track, BOTH)

    def network(self):
        """Returns the document without routes. Every open end gets a border."""
        for track in range(len(self.ends)):
            self.end(track)
        return {"version": 1, "sections": self.sections, "routes": []}


def loops():
    """Returns a single track with three stations of two, three and two platforms."""
    one = Line(1)
    for platforms in (2, 3, 2):
        one.loop(0, platforms)
        one.plain(0)
    return one.network()


def double(crossings):
    """Returns a double track with `crossings` places to cross over, both ways."""
    one = Line(2)
    for number in range(crossings):
        for track in (0, 1):
            one.plain(track, BOTH)
        one.crossover(number % 2, 1 - number % 2)
        if number % 3 == 0:
            one.plain(0)
        one.crossover(1 - number % 2, number % 2)
    for track in (0, 1):
        one.plain(track, BOTH)
    return one.network()


def terminus():
    """Returns two tracks into a terminus with five platforms."""
    one = Line(2)
    for track in (0, 1):
        one.plain(track, BOTH)
    one.crossover(0, 1)
    one.crossover(1, 0)
    one.part(0, "plus")
    one.part(1, "minus")
    one.part(2, "plus")
    for track in range(5):
        one.plain(track, DOWN)
    return one.network()


def junction():
    """Returns a double track and a single branch with a loop."""
    one = Line(2)
    for track in (0, 1):
        one.plain(track, BOTH)
    one.crossover(0, 1)
    third = one.part(1, "plus")
    for track in (0, 1, third):
        one.plain(track, BOTH)
    one.crossover(1, 0)
    one.loop(third, 2)
    one.plain(0, BOTH)
    one.plain(1, BOTH)
    one.crossover(0, 1)
    return one.network()


def stations():
    """Returns two tracks with loops, and crossovers between and behind them."""
    one = Line(2)
    for _ in range(2):
        for track in (0, 1):
            one.loop(track, 2)
        one.crossover(0, 1)
        one.crossover(1, 0)
    for track in (0, 1):
        one.plain(track, BOTH)
    return one.network()


NETWORKS = {"loops": loops, "double": lambda: double(3), "crossings": lambda: double(7),
            "terminus": terminus, "junction": junction, "stations": stations}


def with_routes(program, network):
    """Returns a network with all of its routes, as printed by `irv table`."""
    done = subprocess.run([program, "table"], input=json.dumps(network).encode(),
                          capture_output=True, check=True)
    return json.loads(done.stdout)
