"""A network's ways from its configuration: an independent implementation of the walk of `irv
table`."""

from typing import Dict, List, Optional, Tuple

LONGEST = 32            # longest path that the schema allows
LIMIT_WAYS = 4096
LIMIT_STEPS = 1 << 20

Way = Tuple[str, Tuple[str, ...]]


class TooManyWays(Exception):
    """A network with too many ways."""


class Network:
    """A configuration's sections by name, and its boards' places."""

    def __init__(self, configuration: dict):
        self.by_name: Dict[str, dict] = {one["name"]: one for one in configuration["sections"]}
        self.place_of: Dict[str, Tuple[str, str]] = {}
        for one in configuration["sections"]:
            for direction in ("down", "up"):
                board = one.get(f"board_{direction}")
                if board:
                    self.place_of[board] = (one["name"], direction)

    def is_point(self, name: str) -> bool:
        """Returns whether a section is points."""
        return self.by_name[name]["kind"] == "point"

    def beyond(self, name: str, direction: str) -> List[str]:
        """Returns the sections next to a section in a direction."""
        one = self.by_name[name]
        if one["kind"] == "linear":
            return [one[direction]] if one[direction] else []
        return [one["plus"], one["minus"]] if one["faces"] == direction else [one["stem"]]

    def board(self, name: str, direction: str) -> Optional[str]:
        """Returns the board of a section for a direction, or `None`."""
        return self.by_name[name].get(f"board_{direction}")

    def ways(self) -> List[Way]:
        """Returns each way of at most `LONGEST` sections from a board to the next board or the end
        of the track."""
        found: List[Way] = []
        steps = 0
        for board, (start, direction) in self.place_of.items():
            todo: List[Tuple[str, ...]] = [(start,)]
            while todo:
                path = todo.pop()
                steps += 1
                if len(found) > LIMIT_WAYS or steps > LIMIT_STEPS:
                    raise TooManyWays(f"more than {LIMIT_WAYS} ways lead from the boards")
                for name in self.beyond(path[-1], direction):
                    longer = path + (name,)
                    if self.board(name, direction) or not self.beyond(name, direction):
                        found.append((board, longer[1:]))
                    elif len(longer) <= LONGEST:
                        todo.append(longer)
        return found

    def is_path(self, board: str, path) -> bool:
        """Returns whether a path leads on from a board's section, step by step."""
        last, direction = self.place_of[board]
        for name in path:
            if name not in self.beyond(last, direction):
                return False
            last = name
        return bool(path)
