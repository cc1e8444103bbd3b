"""Random single faults in a table, and random route protection.

Each function changes a random place of a document. It describes the change, or returns `None` if
there is nothing to change.
"""

import copy

from tests.support.fifteen_section_line import of

LEGS = {"plus": "minus", "minus": "plus"}


def boards_of(document):
    """Returns the boards by name, each with its section and direction."""
    return {section["board_" + side]: (section, side) for section in document["sections"]
            for side in ("down", "up") if section.get("board_" + side)}


def a_route(document, chance, wanted=lambda route: True):
    """Returns a random route that satisfies `wanted`, or `None` if there is none."""
    found = [route for route in document["routes"] if wanted(route)]
    return chance.choice(found) if found else None


def turned(document, chance):
    """Turns a listed point to its other position."""
    route = a_route(document, chance, lambda one: one["points"])
    if route:
        entry = chance.choice(route["points"])
        entry["position"] = LEGS[entry["position"]]
        return f"{route['name']} lists {entry['point']}={entry['position']}"


def not_listed(document, chance):
    """Removes a listed point."""
    route = a_route(document, chance, lambda one: one["points"])
    if route:
        entry = chance.choice(route["points"])
        route["points"].remove(entry)
        return f"{route['name']} doesn't list {entry['point']}"


def keep_points(route):
    """Removes listed points in neither path nor overlap."""
    route["points"] = [entry for entry in route["points"]
                       if entry["point"] in route["path"] + route["overlap"]]


def skipped(document, chance):
    """Removes a section of a path."""
    route = a_route(document, chance, lambda one: len(one["path"]) > 1)
    if route:
        name = route["path"].pop(chance.randrange(len(route["path"])))
        keep_points(route)
        return f"the path of {route['name']} leaves out {name}"


def cut(document, chance):
    """Ends a path early."""
    route = a_route(document, chance, lambda one: len(one["path"]) > 1)
    if route:
        del route["path"][chance.randrange(1, len(route["path"])):]
        keep_points(route)
        return f"the path of {route['name']} ends with {route['path'][-1]}"


def other_source(document, chance):
    """Gives a route another source."""
    route = a_route(document, chance)
    others = [name for name in boards_of(document)
              if name not in (route["source"], *route["protecting_boards"])]
    if others:
        route["source"] = chance.choice(others)
        return f"{route['name']} begins at {route['source']}"


def other_destination(document, chance):
    """Gives a route another destination."""
    route = a_route(document, chance)
    route["destination"] = chance.choice([name for name in (*boards_of(document), None)
                                          if name != route["destination"]])
    return f"{route['name']} leads to {route['destination']}"


def no_conflicts(document, chance):
    """Removes some conflicts on both sides."""
    route = a_route(document, chance, lambda one: one["conflicts"])
    if route:
        gone = chance.sample(route["conflicts"], chance.randint(1, len(route["conflicts"])))
        for name in gone:
            route["conflicts"].remove(name)
            other = of(document, name)
            if route["name"] in other["conflicts"]:
                other["conflicts"].remove(route["name"])
        return f"{route['name']} and {', '.join(gone)} don't list each other"


def no_protection(document, chance):
    """Removes a protecting board or point, or turns the point."""
    route = a_route(document, chance, lambda one: one["protecting_boards"]
                    or one["protecting_points"])
    if route:
        kind = chance.choice([kind for kind in ("protecting_boards", "protecting_points")
                              if route[kind]])
        entry = chance.choice(route[kind])
        if kind == "protecting_points" and chance.random() < 0.5:
            entry["position"] = LEGS[entry["position"]]
            return f"{route['name']} has {entry['point']}={entry['position']} as its protection"
        route[kind].remove(entry)
        return f"{route['name']} lacks {entry} among its {kind}"


FAULTS = {"turned": turned, "not listed": not_listed, "skipped": skipped, "cut": cut,
          "source": other_source, "destination": other_destination, "conflicts": no_conflicts,
          "protection": no_protection}


def with_fault(document, kind, chance):
    """Returns a document with a fault and its description, or `None` if nothing can change."""
    document = copy.deepcopy(document)
    words = FAULTS[kind](document, chance)
    return words and (document, words)


# -- protection of routes

def with_protection(document, chance):
    """Returns a document in which some routes have an overlap, protecting boards and points that
    keep the rules."""
    document = copy.deepcopy(document)
    sections = {section["name"]: section for section in document["sections"]}
    boards = boards_of(document)
    for route in document["routes"]:
        give_overlap(route, sections, boards, chance)
        give_points(route, sections, chance)
        others = [name for name, (section, _) in boards.items()
                  if name != route["source"] and section["name"] not in route["path"]]
        if chance.random() < 0.3:
            route["protecting_boards"] = chance.sample(others, min(len(others), 2))
    list_conflicts(document["routes"])
    return document


def give_overlap(route, sections, boards, chance):
    """Sometimes makes the section after a route's end its overlap."""
    way = boards[route["source"]][1]
    last = sections[route["path"][-1]]
    if chance.random() < 0.7 or last["kind"] == "point" or last[way] is None:
        return
    after = sections[last[way]]
    route["overlap"] = [after["name"]]
    if after["kind"] == "point":
        leg = next(leg for leg in ("stem", "plus", "minus") if after[leg] == last["name"])
        route["points"].append({"point": after["name"],
                                "position": chance.choice(("plus", "minus"))
                                if leg == "stem" else leg})


def give_points(route, sections, chance):
    """Sometimes makes the points next to a route's path its protecting points, in a position that
    leads away."""
    used = route["path"] + route["overlap"]
    for name in used:
        for beside in (sections[name].get(end) for end in ("down", "up", "stem", "plus", "minus")):
            section = sections.get(beside)
            if section is None or section["kind"] != "point" or beside in used \
                    or chance.random() < 0.6 \
                    or any(entry["point"] == beside for entry in route["protecting_points"]):
                continue
            position = next((leg for leg in ("plus", "minus") if section[leg] != name), "plus")
            route["protecting_points"].append({"point": beside, "position": position})


def list_conflicts(routes):
    """Lists as conflicts the routes that share a section, or of which one has the other's source as
    a protecting board."""
    def taken(one):
        return {*one["path"], *one["overlap"],
                *(entry["point"] for entry in one["protecting_points"])}

    def excludes(one, other):
        return taken(one) & taken(other) or other["source"] in one["protecting_boards"]
    for one in routes:
        one["conflicts"] = [other["name"] for other in routes if other is not one
                            and (excludes(one, other) or excludes(other, one))]
