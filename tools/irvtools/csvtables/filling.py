"""Derived entries of an interlocking table: the conflicts that C5, C6 and C8 require, and the point
positions for C3. Nothing typed is removed or changed."""

from __future__ import annotations

from dataclasses import dataclass, field

from irvtools.model.phrases import SIGNS, join
from irvtools.model.plant import OTHER_LEG, Plant, Route
from irvtools.rules.exclusions import demanded
from irvtools.rules.way_points import leading_along, way_of

CONFLICTS, POINTS = "conflicts", "points"
COLUMNS = (CONFLICTS, POINTS)
NEEDED = ("F", "N", "R", "C1", "C2")        # required before filling


@dataclass
class Filling:
    """A filled configuration. `counts` is the number of added entries by column. `decisions` and
    `wrong` are sentences about unfilled points, and `extra` about conflicts that no rule requires."""

    value: dict
    counts: dict[str, int] = field(default_factory=dict)
    decisions: list[str] = field(default_factory=list)
    wrong: list[str] = field(default_factory=list)
    extra: list[str] = field(default_factory=list)


def hindrances(lines: list[str]) -> list[str]:
    """Returns the lines of `check` that prevent filling."""
    return [line for line in lines if line.startswith(tuple(f"refused {rule}" for rule in NEEDED))]


def filled(value: dict, columns: list[str], is_exact: bool = False) -> Filling:
    """Returns a configuration with the derived entries of `columns`. The rules F, N, R, C1 and C2
    have to hold. If `is_exact`, it also names conflicts that no rule requires."""
    plant = Plant(value)
    found = Filling(value, {column: 0 for column in columns})
    if is_exact:
        found.extra = list(undemanded(plant))
    routes = [dict(route) for route in value["routes"]]
    wanted = wanted_conflicts(plant)
    for route, member in zip(plant.routes, routes):
        if POINTS in columns:
            fill_points(plant, route, member, found)
        if CONFLICTS in columns:
            fill_conflicts(plant, route, member, wanted[route.number], found)
    found.value = {**value, "routes": routes}
    return found


def merged(listed: list[str], added: list[str], order: dict[str, int]) -> list[str]:
    """Returns a list with names added: in `order` if the list is, otherwise at its end."""
    numbers = [order[name] for name in listed]
    return sorted(listed + added, key=order.get) if numbers == sorted(numbers) else listed + added


# -- conflicts

def fill_conflicts(plant: Plant, route: Route, member: dict, wanted: set[int], found: Filling) -> None:
    """Adds the conflicts `wanted` that a route lacks."""
    listed = list(member["conflicts"])
    added = [plant.routes[j].name for j in sorted(wanted - set(route.conflicts))]
    member["conflicts"] = merged(listed, added, plant.route_named)
    found.counts[CONFLICTS] += len(added)


def wanted_conflicts(plant: Plant) -> list[set[int]]:
    """Returns each route's conflicts that C5, C6 and C8 require, with the listed ones."""
    wanted = [set(route.conflicts) for route in plant.routes]
    listed = [(route.number, j) for route in plant.routes for j in route.conflicts]
    for i, j in [*listed, *demanded(plant)]:
        wanted[i].add(j)
        wanted[j].add(i)
    return wanted


def undemanded(plant: Plant):
    """Yields the listed conflicts that neither C6 nor C8 requires, each with its reverse."""
    needed = demanded(plant)
    for i, route in enumerate(plant.routes):
        for j in route.conflicts:
            other = plant.routes[j]
            is_mutual = i in other.conflicts
            if (min(i, j), max(i, j)) in needed or is_mutual and j < i:
                continue
            reverse = f"{other.name} lists {route.name} too" if is_mutual \
                else f"{other.name} does not list {route.name}"
            yield f"route {route.name} lists the conflict {other.name}; {reverse}; no rule demands it"


# -- points

def fill_points(plant: Plant, route: Route, member: dict, found: Filling) -> None:
    """Adds missing points of path and overlap, in the position that leads along."""
    listed = dict(route.points)
    added = {}
    way = way_of(plant, route)
    for place in range(1, len(way)):
        x = way[place]
        if not plant.sections[x].is_point:
            continue
        positions = leading_along(plant, way, place)
        if x in listed:
            if positions and listed[x] not in positions:
                found.wrong.append(wrong_words(plant, route, x, listed[x]))
        elif len(positions) == 1:
            added[plant.name(x)] = positions[0]
        else:
            found.decisions.append(decision_words(plant, route, x, positions))
    order = {plant.name(x): place for place, x in enumerate(way)}
    of_point = {**{entry["point"]: entry["position"] for entry in member["points"]}, **added}
    names = merged([entry["point"] for entry in member["points"]], list(added), order)
    member["points"] = [{"point": name, "position": of_point[name]} for name in names]
    found.counts[POINTS] += len(added)


def wrong_words(plant: Plant, route: Route, x: int, position: str) -> str:
    """Returns that a listed position does not lead along the route's way."""
    where = "path" if x in route.path else "overlap"
    return (f"route {route.name} lists {plant.name(x)}{SIGNS[position]}, and its {where} needs "
            f"{plant.name(x)}{SIGNS[OTHER_LEG[position]]}; the entry was not changed")


def decision_words(plant: Plant, route: Route, x: int, positions: list[str]) -> str:
    """Returns why a point was not filled."""
    name = plant.name(x)
    if positions:
        return (f"route {route.name}: its overlap ends at the points {name}, which a train meets facing: "
                f"{join([name + SIGNS[one] for one in positions], 'or')}")
    return f"route {route.name}: its overlap does not lead over the points {name} (rule C4)"
