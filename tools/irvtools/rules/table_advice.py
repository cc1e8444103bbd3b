"""Advice about a table, by route: mistakes that no rule checks, and notes. Safety in the model does
not depend on it, because trains of the model stop at closed boards."""

from __future__ import annotations

from dataclasses import dataclass
from itertools import combinations
from typing import Iterator

from irvtools.model.phrases import SIGNS, join
from irvtools.model.plant import OTHER_LEG, Plant, Route
from irvtools.rules.advice import overlap_ends
from irvtools.rules.flank_protection import (
    IDLE, LEADS_IN, NOTHING, TRAILED, effect, flanks)
from irvtools.rules.way_points import leading_along, way_of

MISTAKE, NOTE = "mistake", "note"
UNCHECKED = "Not checked by any rule."
OFF_OVERLAP = "A train that passes the end of its path would leave the overlap, or run through the points."
INTO_PATH = "A vehicle that is to be kept out is led in."
NO_EFFECT = "The route locks these points, and they keep nothing out."
OPEN_LEG = "Only the rules of operation keep such a vehicle out."
SHARED_ONLY = "Without these points the routes could be set together."
SHORT_OVERLAP = "An overlap usually ends at a board or at the end of the track."


@dataclass(frozen=True)
class Advice:
    """A mistake or a note: its routes (none if about all), the fact, and why it matters."""

    kind: str
    routes: tuple[int, ...]
    sentence: str
    reason: str

    def words(self) -> str:
        """Returns the advice with its reason, and that no rule checks it."""
        return f"{self.sentence} {self.reason} {UNCHECKED}"


def point_at(plant: Plant, x: int, position: str) -> str:
    """Returns a point with the sign of a position."""
    return plant.name(x) + SIGNS[position]


# -- mistakes

def overlap_mistakes(plant: Plant, route: Route) -> Iterator[Advice]:
    """Yields an overlap's points in a listed position that does not lead along it."""
    listed, way = dict(route.points), way_of(plant, route)
    for place in range(len(route.path) + 1, len(way)):
        x = way[place]
        positions = leading_along(plant, way, place) if plant.sections[x].is_point else []
        if x in listed and positions and listed[x] not in positions:
            yield Advice(MISTAKE, (route.number,), (
                f"Route {route.name} lists {point_at(plant, x, listed[x])}, and its overlap leads over "
                f"{point_at(plant, x, positions[0])}."), OFF_OVERLAP)


def protection_mistakes(plant: Plant, route: Route) -> Iterator[Advice]:
    """Yields a route's protecting points that lead into its path or keep nothing out."""
    for x, position in route.protecting_points:
        here = f"Route {route.name} has the protecting points {point_at(plant, x, position)}"
        found = effect(plant, route, x, position)
        if found == LEADS_IN:
            yield Advice(MISTAKE, (route.number,),
                         f"{here}, which lead a vehicle into its path or overlap.", INTO_PATH)
        elif found == IDLE:
            yield Advice(MISTAKE, (route.number,), (
                f"{here}, and no vehicle comes over them into its path or overlap without passing a board."),
                NO_EFFECT)


def mistakes(plant: Plant) -> list[Advice]:
    """Returns the mistakes of a table."""
    return [one for route in plant.routes
            for one in (*overlap_mistakes(plant, route), *protection_mistakes(plant, route))]


# -- notes

def trailed_protection(plant: Plant, route: Route) -> Iterator[Advice]:
    """Yields a route's protecting points that vehicles to keep out meet trailing."""
    for x, position in route.protecting_points:
        if effect(plant, route, x, position) == TRAILED:
            yield Advice(NOTE, (route.number,), (
                f"Route {route.name} has the protecting points {point_at(plant, x, position)}, which a vehicle "
                "on its way into the path meets trailing."), (
                f"From their {OTHER_LEG[position]} leg it would run through them; from their {position} leg it is "
                "led in."))


def open_legs(plant: Plant, route: Route) -> Iterator[Advice]:
    """Yields the legs into a route's path without a protecting point or board."""
    for flank in flanks(plant, route):
        if flank.guard.kind == NOTHING:
            yield Advice(NOTE, (route.number,), (
                f"A vehicle from the border {plant.name(flank.guard.number)} can come into the path of route "
                f"{route.name} over {point_at(plant, flank.point, flank.leg)}: neither a protecting point nor "
                "a board is in its way."), OPEN_LEG)


def shared_protection(plant: Plant) -> Iterator[Advice]:
    """Yields the pairs of routes that exclude each other only by a shared protecting point."""
    for one, other in combinations(plant.routes, 2):
        points = [{x for x, _ in route.protecting_points} for route in (one, other)]
        shared = points[0] & points[1]
        boards = one.source in other.protecting_boards or other.source in one.protecting_boards
        if shared and shared == set(one.locked) & set(other.locked) and not boards:
            words = join(sorted(map(plant.name, shared)))
            yield Advice(NOTE, (one.number, other.number), (
                f"Routes {one.name} and {other.name} exclude each other only because both lock the protecting "
                f"points {words}."), SHARED_ONLY)


def short_overlaps(plant: Plant) -> Iterator[Advice]:
    """Yields, as one note, the overlaps that end without a board although the line goes on."""
    routes, _ = overlap_ends(plant)
    if routes:
        words = ", ".join(f"{route.name} ({plant.name(route.overlap[-1])})" for route in routes)
        yield Advice(NOTE, (), f"Overlaps that do not end at a board, although the line continues: {words}.",
                     SHORT_OVERLAP)


def notes(plant: Plant) -> list[Advice]:
    """Returns the notes about a table."""
    return [*(one for route in plant.routes
              for one in (*open_legs(plant, route), *trailed_protection(plant, route))),
            *shared_protection(plant), *short_overlaps(plant)]


def by_route(plant: Plant) -> list[tuple[str, list[Advice]]]:
    """Returns all advice by its first route's name; the name is empty if it is about all routes.
    Mistakes come first, in a group and among groups."""
    groups: dict[str, list[Advice]] = {}
    for one in [*mistakes(plant), *notes(plant)]:
        groups.setdefault(plant.routes[one.routes[0]].name if one.routes else "", []).append(one)
    return sorted(groups.items(), key=lambda group: (group[0] == "", group[1][0].kind != MISTAKE))
