"""The page's advice: what an engineer also looks for, marked as no answer."""

from __future__ import annotations

from typing import TYPE_CHECKING

from irvtools.rules import advice, table_advice
from irvtools.rules.flank_protection import KINDS, NOTHING, POINT, crossing, flanks
from irvtools.html.markup import table, tag, text
from irvtools.model.descriptions import counted
from irvtools.model.phrases import join

if TYPE_CHECKING:
    from irvtools.html.report import Report

ASK_SECONDS = 30        # for table
MOST_NAMES = 40         # in one sentence
MOST_ROWS = 400         # of the table of ways
KIND_WORDS = {"a board that it would pass closed": "a closed board", "nothing": "nothing"}


def advice_part(page: Report, unused: list[int]) -> None:
    """Adds all advice. `unused` are the routes without a found run."""
    page.head("Advice", "advice")
    page.add(tag("p", text("This is advice, not an answer of irv. An engineer looks for it in such "
                           "a table, "
                           "but no rule asks for it. Safety in the model does not depend on it: "
                           "trains of "
                           "the model stop at closed boards. The engineer decides what applies."),
                 class_="small"))
    route_advice(page)
    flank_advice(page)
    overlap_advice(page)
    way_advice(page)
    use_advice(page, unused)
    cause_advice(page)


def say(page, sentence, *more):
    """Adds a piece of advice."""
    page.add(tag("div", tag("p", text(sentence)) + "".join(more), class_="advice"))


def names(things):
    """Returns the names of things, as many as fit in a sentence."""
    found = [thing.name for thing in things]
    left = len(found) - MOST_NAMES
    return join(found[:MOST_NAMES]) + (f", and {left} more" if left > 0 else "")


# -- mistakes, notes

def route_advice(page):
    """Adds mistakes that no rule checks, and notes, by route."""
    for _, group in table_advice.by_route(page.plant):
        say(page, group[0].words() if group[0].kind == table_advice.NOTE else f"Mistake: "
                                                                              f"{group[0].words()}",
            *(tag("p", text(f"{one.kind.capitalize()}: {one.words()}")) for one in group[1:]))


# -- flank protection

def flank_advice(page):
    """Adds the flank protection of each route's path."""
    found = [(route, flank) for route in page.plant.routes for flank in flanks(page.plant, route)]
    if not found:
        say(page, "No route leads over points, so no vehicle could run into a path from the side.")
        return
    kinds = {kind: sum(flank.guard.kind == kind for _, flank in found) for kind in KINDS}
    count = "In one place" if len(found) == 1 else f"In {len(found)} places"
    say(page, f"Flank protection. {count} a vehicle could run into a route's path over points. It "
              f"is kept "
              "out by: " + "; ".join(f"{kind_words(kind)} "
                                     f"{number}" for kind, number in kinds.items()) + ".",
        flank_table(page.plant, found))


def kind_words(kind):
    """Returns a kind of flank protection in words."""
    return KIND_WORDS.get(kind, kind)


def point_words(plant, flank):
    """Returns a path's points, with the leg from which a vehicle would come."""
    if flank.leg is None:
        return f"the end of the path in {plant.name(flank.point)}"
    other = crossing(plant, flank.point)
    crosses = "" if other is None else \
        f" (lines cross at {plant.name(flank.point)} and {plant.name(other)})"
    return f"the {flank.leg} leg of {plant.name(flank.point)}{crosses}"


def guard_words(plant, guard):
    """Returns the name of what keeps a vehicle out."""
    if guard.kind == NOTHING:
        return f"nothing, from border {plant.name(guard.number)}"
    if guard.kind == POINT:
        return f"{kind_words(guard.kind)}: {plant.name(guard.number)}"
    return f"{kind_words(guard.kind)}: {plant.boards[guard.number].name}"


def flank_table(plant, found):
    """Returns a folded table of the places."""
    rows = [[route.name, point_words(plant, flank), plant.name(flank.begin),
             guard_words(plant, flank.guard)] for route, flank in found[:MOST_ROWS]]
    left = len(found) - len(rows)
    return tag("details", tag("summary", text("each place"))
               + table(["route", "over", "from", "kept out by"], rows)
               + (tag("p", text(f"Left out: {left} more.")) if left else ""))


# -- overlaps

def overlap_advice(page):
    """Adds missing overlaps, and the ends of overlaps."""
    plant = page.plant
    bare = advice.without_overlap(plant)
    if bare:
        say(page, f"{counted(len(bare), 'route')} without an overlap beyond the exit board: "
                  f"{names(bare)}.")
    _, outside = advice.overlap_ends(plant)
    if outside:
        say(page, f"The overlap of {names(outside)} ends where the network ends. The configuration "
                  f"does not "
                  "say what comes after.")


# -- network ways

def way_advice(page):
    """Adds the network's ways beside the table's routes."""
    answer = page.ask(["table", "--columns", "free"], ASK_SECONDS)
    page.show_shortly(answer)
    if answer.status != 0:
        say(page, "The page does not know the candidate routes of the network, so it compares no "
                  "routes with "
                  "them.")
        return
    plant = page.plant
    ways = advice.Ways(plant, answer.output)
    say(page, f"The network has {counted(ways.count, 'candidate route')} from a board to the next "
              f"board or to "
              f"the end of the network, as irv table prints them. The table has "
              f"{counted(len(plant.routes), 'route')}.")
    for found, words in ((ways.to_boards(), "from board to board"),
                         (ways.over_borders(), "out of the area over a border that the table uses"),
                         (ways.at_dead_ends(), "to or from a border that the table does not use, "
                                               "such as a "
                                               "dead end or a trap road")):
        if found:
            say(page, f"{counted(len(found), 'candidate route')} {words} "
                      f"{'is' if len(found) == 1 else 'are'} not in the table: "
                      f"{way_names(plant, found)}.")
    if ways.other:
        one = len(ways.other) == 1
        say(page, f"{counted(len(ways.other), 'route')} of the table {'is' if one else 'are'} not "
                  f"a candidate "
                  f"route of the network: {names(ways.other)}.")


def way_names(plant, ways):
    """Returns candidate routes in words."""
    found = []
    for way in ways[:MOST_NAMES]:
        path = " ".join(plant.name(x) for x in way[1])
        found.append(f"{plant.boards[way[0]].name} to {advice.end_of(plant, way) or 'out'} over "
                     f"{path}")
    left = len(ways) - len(found)
    return "; ".join(found) + (f"; and {left} more" if left > 0 else "")


# -- use

def use_advice(page, unused):
    """Adds routes, boards and points that seem to be unused."""
    plant = page.plant
    if unused:
        say(page, f"No run was found in which a train uses the whole route: "
                  f"{names([plant.routes[r] for r in unused])}.")
    boards = advice.unused_boards(plant)
    if boards:
        say(page, f"{counted(len(boards), 'board')} at which no route begins or ends: "
                  f"{names(boards)}.")
    one_way, never = advice.points_one_way(plant)
    for x, position, count in one_way[:MOST_NAMES]:
        every = "The only route that locks" if count == 1 else f"All {count} routes that lock"
        verb = "needs" if count == 1 else "need"
        say(page, f"{every} points {plant.name(x)} {verb} them in position {position}.")
    if never and plant.routes:
        say(page, f"Points that no route locks: {names([plant.sections[x] for x in never])}.")


# -- common causes

def cause_advice(page):
    """Adds faults that may have one cause."""
    for x, routes in advice.exchanged_legs(page.plant):
        name = page.plant.name(x)
        say(page, f"All {len(routes)} routes that lead over points {name} and list them, list them "
                  f"in the "
                  f"position that does not lead along their path ({names(routes)}). This may be "
                  f"one mistake "
                  f"instead of {len(routes)}: the legs plus and minus of {name} may be exchanged "
                  f"in the "
                  "network.")
