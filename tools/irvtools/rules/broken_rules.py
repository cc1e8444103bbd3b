"""The broken rules of network, table and columns in words: what the configuration has, and should
have. `irv check` finds the rules and places; the words are the page's own.

Each function of EXPLAINED takes a plant and the places' numbers, and yields sentences. `where` says
what to mark in the plan."""

from __future__ import annotations

from irvtools.model.plant import Plant
from irvtools.rules import column_rules as columns
from irvtools.rules import network_rules as network
from irvtools.rules import table_rules as table
from irvtools.trackplan.marks import Marks

NEEDED = ("A configuration that breaks this rule is not a plant: nothing else is asked about it, "
          "and there "
          "is no verdict.")
RESTS = "Safety depends on this rule."
IDLE = ("Safety does not depend on this rule: the sections that a route locks keep other routes "
        "away. But "
        "the table does not say what it should.")
IDLE_OVERLAP = ("Safety depends on this rule only for the points of the path. These points are in "
                "the overlap.")
IDLE_END = ("Safety depends on this rule only in that a board or the end of the network stops a "
            "train at the "
            "end of the path, as it does here. It does not depend on the rest of the rule (the "
            "destination, "
            "and no boards inside a path): a train stops at a closed board. But the table does not "
            "say what "
            "it should.")
WORDLESS = "This version has no sentence for the rule {}; docs/reference/model.md has the rule."
UNKNOWN = "It is not known whether safety depends on this rule."
RESTING = ("C1", "C2", "C3", "C7")      # column rules on which safety depends, at least in part
BY_DIRECTION = ("C2", "C4")             # rules that a route in the wrong direction often breaks too

EXPLAINED = {
    "N1": network.same_section, "N2": network.same_board,
    "N3": network.wrong_neighbour, "N4": network.same_neighbour,
    "N5": network.not_named_back, "N6": network.alone,
    "N7": network.returns, "N8": network.board_at_end,
    "R1": table.same_route, "R2": table.no_source,
    "R3": table.wrong_sections, "R4": table.wrong_points,
    "R5": table.no_destination, "R6": table.wrong_conflicts,
    "R7": table.wrong_protecting_points, "R8": table.wrong_protecting_boards,
    "C1": columns.path_gap, "C2": columns.path_end,
    "C3": columns.points_wrong, "C4": columns.overlap_gap,
    "C5": columns.one_sided, "C6": columns.unlisted_share,
    "C7": columns.bare_border, "C8": columns.unlisted_protection}


def read_line(line: str) -> tuple[str, list[tuple[str, int]]]:
    """Returns the rule of a line of check, and its places as words with numbers."""
    _, rule, *places = line.split(" ")
    return rule, [(place.rstrip("]").split("[")[0], int(place.rstrip("]").split("[")[1]))
                  for place in places if "[" in place]


def sentences(plant: Plant, rule: str, places: list[tuple[str, int]]) -> list[str]:
    """Returns what the configuration has and should have. A route in the wrong direction comes
    first."""
    if rule not in EXPLAINED:
        return [WORDLESS.format(rule)]
    i = places[0][1]
    found = list(EXPLAINED[rule](plant, *(number for _, number in places)))
    wrong = columns.wrong_way(plant, plant.routes[i]) if rule in ("C1", *BY_DIRECTION) else None
    if wrong and rule != "C1":
        wrong = (f"Route {plant.routes[i].name} is in the wrong direction (see C1), which may be "
                 f"the cause "
                 "of this.")
    return [wrong, *found] if wrong else found


def rests(plant: Plant, rule: str, places: list[tuple[str, int]]) -> bool:
    """Returns whether safety depends on a broken rule. On an unknown column rule it may."""
    if rule not in EXPLAINED:
        return rule[0] == "C" and places != [] and places[0][0] != "boards"
    i = places[0][1]
    if rule == "C2":
        return columns.runs_on(plant, i)
    if rule == "C3":
        return bool(list(columns.points_of_path_wrong(plant, plant.routes[i])))
    return rule in RESTING


def safety(plant: Plant, rule: str, places: list[tuple[str, int]]) -> str:
    """Returns a sentence on whether safety depends on a broken rule."""
    if rule[0] in "NR":
        return NEEDED
    if rule not in EXPLAINED:
        return UNKNOWN
    if rests(plant, rule, places):
        return RESTS
    return {"C2": IDLE_END, "C3": IDLE_OVERLAP}.get(rule, IDLE)


def where(plant: Plant, rule: str, places: list[tuple[str, int]]) -> Marks:
    """Returns what to mark in the plan."""
    if not places:
        return Marks([])
    kind, i = places[0]
    if kind == "sections":
        if rule == "N7":
            return Marks(network.walk_back(plant, i))
        near = plant.sections[i].neighbours.values() if rule in ("N3", "N4", "N5") else []
        return Marks([i, *near])
    if kind == "boards":
        board = plant.boards[i]
        first = plant.board_named[board.name]
        return Marks([board.section, plant.boards[first].section], [i, first])
    return of_route(plant, rule, [number for _, number in places]).with_route(plant.routes[i])


def of_route(plant, rule, numbers):
    """Returns what to mark of a route."""
    route = plant.routes[numbers[0]]
    boards = [route.source, route.destination]
    if rule in ("C1", "C4") and route.source is not None:
        begin = plant.boards[route.source].section if rule == "C1" else route.path[-1]
        pairs = list(columns.gaps(plant, route, route.path if rule == "C1" else route.overlap, begin))
        missing = [y for before, _ in pairs for y in plant.nexts[before, route.direction]]
        return Marks([x for pair in pairs for x in pair] + missing, boards)
    if rule == "C2":
        passed = [x for x in route.path[:-1] if (x, route.direction) in plant.board_on]
        marked = passed or [route.path[-1]]
        return Marks(marked, boards + [plant.board_on.get((x, route.direction)) for x in marked])
    if rule == "C3":
        unlisted = [x for x in route.overlap if plant.sections[x].is_point
                    and x not in dict(route.points)]
        return Marks([x for x, _ in columns.wrong_on_path(plant, route)] + unlisted, boards)
    if rule == "C6":
        return Marks(columns.shared(plant, *numbers), boards + [plant.routes[numbers[1]].source])
    if rule in ("C5", "C8"):
        return Marks([], boards + [plant.routes[numbers[1]].source])
    if rule == "R4":
        return Marks([x for x, _ in route.points], boards)
    if rule == "R7":
        return Marks([x for x, _ in route.protecting_points], boards)
    if rule == "R8":
        return Marks([], boards + route.protecting_boards)
    if rule == "R3":
        return Marks([x for x in route.locked if route.locked.count(x) > 1], boards)
    return Marks([], boards)
