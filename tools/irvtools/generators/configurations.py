"""Test configurations, from a short plant text or of a given size.

They are hand-written: each must be the same on every machine and meet the rules. Random-data
libraries promise neither.
"""

from __future__ import annotations

import json
from typing import Any, Iterable


def or_null(word):
    """Returns a name, or null for a lone dot."""
    return None if word == "." else word


def linear(name: str, down: str, up: str, board_down: str, board_up: str) -> dict[str, str | None]:
    """Returns a linear section's object."""
    return {"name": name, "kind": "linear", "down": or_null(down), "up": or_null(up),
            "board_down": or_null(board_down), "board_up": or_null(board_up)}


def point(name: str, faces: str, stem: str, plus: str, minus: str) -> dict[str, str]:
    """Returns the object of points."""
    return {"name": name, "kind": "point", "faces": faces, "stem": stem,
            "plus": plus, "minus": minus}


def listed(word):
    """Returns a listed point's object, from NAME=POSITION."""
    name, _, position = word.partition("=")
    return {"point": name, "position": position}


SINCE_SECOND = ("protecting_points", "protecting_boards")


def route(words: list[str]) -> dict[str, Any]:
    """Returns a route's object, from NAME from BOARD to BOARD and its named lists."""
    name, heading, source, heading_two, destination, *rest = words
    if (heading, heading_two) != ("from", "to"):
        raise ValueError(f"a route wants from and to: {name}")
    lists = {"path": [], "overlap": [], "points": [], "conflicts": [],
             "protecting_points": [], "protecting_boards": []}
    current = None
    for word in rest:
        if word in lists:
            current = lists[word]
        else:
            current.append(word)
    return {"name": name, "source": source, "destination": or_null(destination),
            "path": lists["path"], "overlap": lists["overlap"],
            "points": [listed(word) for word in lists["points"]],
            "conflicts": lists["conflicts"],
            "protecting_points": [listed(word) for word in lists["protecting_points"]],
            "protecting_boards": lists["protecting_boards"]}


def document(sections: list[dict[str, Any]], routes: list[dict[str, Any]],
             version: int = 1) -> bytes:
    """Returns a configuration's bytes. Version 1 routes have no protecting lists."""
    if version == 1:
        routes = [{key: value for key, value in route.items() if key not in SINCE_SECOND}
                  for route in routes]
    value = {"version": version, "sections": sections, "routes": routes}
    return json.dumps(value, separators=(",", ":")).encode()


def plant_text(lines: Iterable[str]) -> bytes:
    """Returns a short plant text's configuration: version 2 if it has a protecting list or says so,
    otherwise version 1."""
    sections, routes, version = [], [], 1
    for line in lines:
        kind, *words = line.split()
        if any(word in SINCE_SECOND for word in words):
            version = 2
        if kind == "linear":
            sections.append(linear(*words))
        elif kind == "point":
            sections.append(point(*words))
        elif kind == "route":
            routes.append(route(words))
        elif kind == "version":
            version = int(words[0])
        else:
            raise ValueError(f"no line of a plant: {line}")
    return document(sections, routes, version)


def line_sections(count):
    """Returns a line of linear sections s0, s1 and so on upwards, without boards."""
    names = [f"s{i}" for i in range(count)]
    return [linear(name,
                   names[i - 1] if i > 0 else ".",
                   names[i + 1] if i + 1 < count else ".", ".", ".")
            for i, name in enumerate(names)]


def made_line(count: int) -> bytes:
    """Returns `count` sections in a line, without boards and routes."""
    return document(line_sections(count), [])


def made_path(count):
    """Returns a line with a board at its down end and one route over the other sections."""
    sections = line_sections(count + 1)
    sections[0]["board_up"] = "m1"
    path = [section["name"] for section in sections[1:]]
    return document(sections, [{"name": "r1", "source": "m1", "destination": None, "path": path,
                                "overlap": [], "points": [], "conflicts": []}])


def made_overlap(count):
    """Returns a line with a route over its second section and an overlap of `count` more."""
    sections = line_sections(count + 2)
    sections[0]["board_up"] = "m1"
    sections[1]["board_up"] = "m2"
    overlap = [section["name"] for section in sections[2:]]
    return document(sections, [{"name": "r1", "source": "m1", "destination": "m2", "path": ["s1"],
                                "overlap": overlap, "points": [], "conflicts": []}])


def made_routes(count, conflicts):
    """Returns two sections and `count` routes over b; each lists all others, or none."""
    sections = [linear("a", ".", "b", ".", "m1"), linear("b", "a", ".", "m2", ".")]
    names = [f"r{i}" for i in range(count)]
    routes = [{"name": name, "source": "m1", "destination": None, "path": ["b"], "overlap": [],
               "points": [],
               "conflicts": [other for other in names if other != name]
               if conflicts == "listed" else []}
              for name in names]
    return document(sections, routes)


def made_largest():
    """Returns 256 sections in a line and 256 routes over the same 32. Each route has an overlap of
    8 more and 8 protecting boards, and lists all others."""
    sections = line_sections(256)
    sections[0]["board_up"] = "m1"
    sections[32]["board_up"] = "m2"
    sections[255]["board_down"] = "m3"
    for i in range(8):
        sections[100 + i]["board_up"] = f"p{i}"
    names = [f"r{i}" for i in range(256)]
    path = [f"s{i}" for i in range(1, 33)]
    overlap = [f"s{i}" for i in range(33, 41)]
    return document(sections, [{"name": name, "source": "m1", "destination": "m2", "path": path,
                                "overlap": overlap, "points": [],
                                "conflicts": [other for other in names if other != name],
                                "protecting_points": [],
                                "protecting_boards": [f"p{i}" for i in range(8)]}
                               for name in names], 2)


def station_sections(number, count):
    """Returns a station's sections: points, two tracks, points, and the line behind."""
    up_end, down_end = f"l{number - 1}", f"l{number}"
    names = {letter: f"{letter}{number}" for letter in "ptuq"}
    tracks = [linear(names[track], names["p"], names["q"], f"{names[track]}D", f"{names[track]}U")
              for track in "tu"]
    next_point = f"p{number + 1}" if number < count else "."
    return [point(names["p"], "up", up_end, names["t"], names["u"]), *tracks,
            point(names["q"], "down", down_end, names["t"], names["u"]),
            linear(down_end, names["q"], next_point, f"{down_end}D",
                   f"{down_end}U" if number < count else ".")]


def station_routes(number, count):
    """Returns a station's eight routes without conflicts: two in and two out for each direction."""
    before, behind = f"l{number - 1}", f"l{number}"
    p, q, t, u = (f"{letter}{number}" for letter in "pqtu")
    up_exit = f"{behind}U" if number < count else "."
    down_exit = f"{before}D" if number > 1 else "."
    rows = [(f"{before}U", f"{t}U", p, t, f"{p}=plus"), (f"{before}U", f"{u}U", p, u, f"{p}=minus"),
            (f"{t}U", up_exit, q, behind, f"{q}=plus"), (f"{u}U", up_exit, q, behind, f"{q}=minus"),
            (f"{behind}D", f"{t}D", q, t, f"{q}=plus"), (f"{behind}D", f"{u}D", q, u, f"{q}=minus"),
            (f"{t}D", down_exit, p, before, f"{p}=plus"),
            (f"{u}D", down_exit, p, before, f"{p}=minus")]
    return [route([f"s{number}r{place}", "from", source, "to", destination,
                   "path", first, last, "points", listed_point])
            for place, (source, destination, first, last, listed_point) in enumerate(rows, 1)]


def made_stations(count: int) -> tuple[list[dict[str, Any]], list[dict[str, Any]]]:
    """Returns a row of stations, joined by single lines. Each is a loop of two tracks between two
    points. Routes conflict if their paths share a section."""
    sections = [linear("l0", ".", "p1", ".", "l0U")]
    routes = []
    for number in range(1, count + 1):
        sections += station_sections(number, count)
        routes += station_routes(number, count)
    for one in routes:
        one["conflicts"] = [other["name"] for other in routes
                            if other is not one and set(other["path"]) & set(one["path"])]
    return sections, routes


def loop_sections(number, before, behind):
    """Returns a loop of two tracks without boards between two points, with these neighbours."""
    u, p, q, w = (f"{letter}{number}" for letter in "upqw")
    return [point(u, "up", before, p, q), linear(p, u, w, ".", "."), linear(q, u, w, ".", "."),
            point(w, "down", behind, p, q)]


def made_loops(count, groups):
    """Returns `groups` rows of `count` loops without boards, between lines with boards. Each loop
    doubles the ways between lines."""
    every = count * groups
    sections = [linear("l0", ".", "u0", ".", "l0U")]
    for number in range(every):
        line = number // count + 1
        before = f"l{line - 1}" if number % count == 0 else f"w{number - 1}"
        is_last = (number + 1) % count == 0
        sections += loop_sections(number, before, f"l{line}" if is_last else f"u{number + 1}")
        if is_last:
            behind = f"u{number + 1}" if number + 1 < every else "."
            sections.append(linear(f"l{line}", f"w{number}", behind, f"l{line}D",
                                   "." if behind == "." else f"l{line}U"))
    return document(sections, [])


def printed(document: dict[str, Any]) -> bytes:
    """Returns a configuration's bytes as the program prints them: members by name, and a line feed."""
    return json.dumps(document, sort_keys=True, separators=(",", ":")).encode() + b"\n"


def stations_text(count: int, form: str | None = None) -> bytes:
    """Returns the configuration of `count` stations; `bare` has no routes, and `printed` is as
    `make` prints it."""
    sections, routes = made_stations(count)
    text = document(sections, [] if form == "bare" else routes)
    return printed(json.loads(text)) if form == "printed" else text


def made(kind: str, *words: str) -> bytes:
    """Returns a configuration too large to write out."""
    if kind == "line":
        return made_line(int(words[0]))
    if kind == "path":
        return made_path(int(words[0]))
    if kind == "overlap":
        return made_overlap(int(words[0]))
    if kind == "routes":
        return made_routes(int(words[0]), words[1])
    if kind == "largest":
        return made_largest()
    if kind == "loops":
        return made_loops(int(words[0]), int(words[1]))
    if kind == "stations":
        return stations_text(int(words[0]), *words[1:])
    raise ValueError(f"nothing made so: {kind}")
