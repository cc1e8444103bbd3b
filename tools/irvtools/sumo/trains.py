"""Trains for SUMO: one for each route or way, or those of a scenario."""

import re
from typing import Dict, List, Tuple

from irvtools.sumo.net_files import NetFiles
from irvtools.sumo.ways import Network

TRAIN = ('  <vType id="train" vClass="rail" length="60" maxSpeed="20" accel="1" decel="1" '
         'carFollowModel="Krauss"/>\n')
APART_SECONDS = 1000    # between two trains that need the network to themselves
SCENARIO_SECONDS = 60   # between two trains of a scenario


class SceneFault(Exception):
    """A line of a scenario that cannot be used."""


class Train:
    """A train: its name, departure, board and sections."""

    def __init__(self, name: str, depart: int, board: str, path: List[str]):
        self.name, self.depart, self.board, self.path = name, depart, board, path

    def text(self, files: NetFiles) -> str:
        """Returns the train as an element."""
        start, direction = files.network.place_of[self.board]
        edges = files.edges_along([start] + self.path, direction)
        return (f'  <vehicle id="{self.name}" type="train" depart="{self.depart}" '
                f'departPos="base"><route edges="{" ".join(edges)}"/></vehicle>\n')


def apart(metres: float) -> int:
    """Returns a train's seconds on the longest path over sections of a length."""
    return max(APART_SECONDS, int(2.5 * metres))


def end_of(trains: List[Train], metres: float) -> int:
    """Returns a second by which every train that can arrive has arrived."""
    return max((one.depart for one in trains), default=0) + 10 * apart(metres)


def of_routes(configuration: dict, network: Network,
              metres: float) -> Tuple[List[Train], List[str]]:
    """Returns a train for each route, one after another, and a line for each route without one."""
    found, lines = [], []
    for route in configuration["routes"]:
        if network.is_path(route["source"], route["path"]):
            found.append(Train(route["name"], apart(metres) * len(found), route["source"],
                               route["path"]))
        else:
            lines.append(f"route {route['name']} has no train: its path is not connected")
    return found, lines


def of_ways(network: Network, metres: float) -> List[Train]:
    """Returns two trains for each way of the network, one after the other. On an edge's first use,
    SUMO makes its driveways anew, and keeps only one of those that begin alike; in the second pass
    no edge is new."""
    ways = network.ways()
    return [Train(f"{letter}{number}", apart(metres) * (number + turn * len(ways)), board,
                  list(path))
            for turn, letter in enumerate("ab") for number, (board, path) in enumerate(ways)]


def commands_of(text: str, configuration: dict) -> List[Tuple[str, str]]:
    """Returns the commands of a scenario."""
    lines = text.split("\n")
    if lines[:1] != ["drive 1"] or lines[-2:] != ["end", ""]:
        raise SceneFault("the first line has to be `drive 1`, the last one `end`")
    names = {"enter": {one["name"] for one in configuration["sections"]},
             "mark": {one["name"] for one in configuration["routes"]}}
    names["cancel"] = names["mark"]
    found = []
    for number, line in enumerate(lines[1:-2], 2):
        command = re.fullmatch(r"(enter|mark|cancel) ([A-Za-z0-9_-]{1,32})", line)
        if not command or command[2] not in names[command[1]]:
            raise SceneFault(f"line {number}: `{line[:60]}` is no command over this plant")
        found.append((command[1], command[2]))
    return found


def requests(commands: List[Tuple[str, str]]) -> Tuple[List[str], List[str]]:
    """Returns the trains' entry sections, and the requested routes without cancelled ones."""
    entries, marks = [], []
    for command, name in commands:
        if command == "enter":
            entries.append(name)
        elif command == "mark":
            marks.append(name)
        elif name in marks:
            del marks[len(marks) - 1 - marks[::-1].index(name)]
    return entries, marks


def of_scenario(text: str, configuration: dict,
                network: Network) -> Tuple[List[Train], List[str]]:
    """Returns a train for each `enter` of a scenario, and a line for each without one. A train
    takes the requested routes that lead on from its position, in request order."""
    routes: Dict[str, dict] = {one["name"]: one for one in configuration["routes"]}
    entries, marks = requests(commands_of(text, configuration))
    found, lines = [], []
    for number, entry in enumerate(entries):
        at = start = network.board(entry, "up") or network.board(entry, "down")
        path: List[str] = []
        while at:
            name = next((one for one in marks if routes[one]["source"] == at), None)
            if name is None:
                break
            marks.remove(name)
            path += routes[name]["path"]
            at = routes[name]["destination"]
        if start and network.is_path(start, path):
            found.append(Train(f"train{number + 1}-{entry}", SCENARIO_SECONDS * number, start,
                               path))
        else:
            lines.append(f"entry {number + 1}, at {entry}, has no train: no requested route leads "
                         f"on from there")
    return found, lines


def text_of(trains: List[Train], files: NetFiles) -> str:
    """Returns the file of the trains."""
    return f"<routes>\n{TRAIN}{''.join(one.text(files) for one in trains)}</routes>\n"
