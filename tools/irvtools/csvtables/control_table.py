"""The control table in the usual layout: a row for each route, as CSV and as a printable page."""

from __future__ import annotations

from pathlib import Path

from irvtools.calls.refusal import Refused
from irvtools.csvtables import cells, columns, csv_text, writing
from irvtools.html.markup import tag, text
from irvtools.model.phrases import SIGNS
from irvtools.model.plant import Plant, Route
from irvtools.rules.exclusions import LISTED, reasons

HEADINGS = ("route", "entry signal", "exit signal", "route class", "points normal", "points reverse",
            "overlap sections", "overlap points normal", "overlap points reverse", "flank points",
            "flank boards", "sections clear", "conflicting routes")
ENTRY, EXIT, THROUGH, INNER = "entry", "exit", "through", "inner"
NOT_LISTED = "not listed"
CSS = """
:root{color-scheme:light dark;--line:#868e96;--head:#f1f3f5;--ink:#1c1f24;--back:#fff}
@media (prefers-color-scheme:dark){:root{--line:#5c636a;--head:#2b3035;--ink:#f1f3f5;--back:#16191d}}
body{font:13px/1.4 system-ui,"DejaVu Sans",sans-serif;margin:20px;color:var(--ink);background:var(--back)}
h1{font-size:20px;margin:0 0 6px}p{margin:4px 0 10px;max-width:100ch}
.scroll{overflow-x:auto}table{border-collapse:collapse;min-width:100%}
th,td{border:1px solid var(--line);padding:3px 6px;text-align:left;vertical-align:top}
th{background:var(--head)}td{overflow-wrap:anywhere;min-width:7ch}td:last-child{min-width:28ch}
thead{display:table-header-group}tr{break-inside:avoid}
@page{size:A3 landscape;margin:10mm}
@media print{:root{--line:#868e96;--head:#f1f3f5;--ink:#000;--back:#fff}body{margin:0;font-size:8pt}
.scroll{overflow:visible}th,td{padding:1px 3px}}
"""
LEGEND = ("Normal is plus, reverse is minus. The class says if a route begins at a border (entry), leads out "
          "of the area (exit), both (through) or neither (inner). Sections clear: path, overlap and flank "
          "points have to be vacant before the route is set.")


def see_names(plant: Plant) -> None:
    """Rejects a table that names missing sections, boards or routes."""
    for route in plant.routes:
        named = [route.source, *route.locked, *route.conflicts, *route.protecting_boards,
                 *(x for x, _ in route.points)]
        named += [route.destination] if route.member["destination"] is not None else []
        if None in named:
            raise Refused(f"route {route.name} names a section, board or route that does not exist; "
                          "irv check --explain says which")


def route_class(plant: Plant, route: Route) -> str:
    """Returns whether a route begins at a border, leads out, both or neither."""
    board = plant.boards[route.source]
    is_entry = plant.inward.get(board.section) == board.direction
    if route.destination is None:
        return THROUGH if is_entry else EXIT
    return ENTRY if is_entry else INNER


def points_at(plant: Plant, route: Route, sections: list[int], position: str) -> str:
    """Returns the points among `sections` that a route lists in a position."""
    listed = dict(route.points)
    return " ".join(plant.name(x) for x in sections if listed.get(x) == position)


def conflict_words(plant: Plant, route: Route) -> str:
    """Returns the conflicting routes, each with the reason. Required ones that the table lacks are
    marked."""
    parts = []
    for other in plant.routes:
        if other is route:
            continue
        why = reasons(plant, route.number, other.number)
        if other.number in route.conflicts:
            parts.append(f"{other.name}: {', '.join(why or [LISTED])}")
        elif why:
            parts.append(f"{other.name}: {', '.join([NOT_LISTED, *why])}")
    return "; ".join(parts)


def row(plant: Plant, route: Route) -> list[str]:
    """Returns the cells of a route."""
    exit_ = "" if route.destination is None else plant.boards[route.destination].name
    return [route.name, plant.boards[route.source].name, exit_, route_class(plant, route),
            points_at(plant, route, route.path, "plus"), points_at(plant, route, route.path, "minus"),
            " ".join(map(plant.name, route.overlap)),
            points_at(plant, route, route.overlap, "plus"),
            points_at(plant, route, route.overlap, "minus"),
            " ".join(plant.name(x) + SIGNS[position] for x, position in route.protecting_points),
            " ".join(plant.boards[b].name for b in route.protecting_boards),
            " ".join(map(plant.name, route.locked)), conflict_words(plant, route)]


def rows(value: dict) -> list[list[str]]:
    """Returns the cells of all routes."""
    plant = Plant(value)
    see_names(plant)
    return [row(plant, route) for route in plant.routes]


def label_of(route: dict) -> str:
    """Returns a route's label, or an empty text."""
    return route.get(columns.EXTRA, {}).get(columns.LABEL, "").strip()


def page(value: dict, title: str) -> str:
    """Returns the control table as a page. Route labels are beside the names."""
    head = tag("tr", "".join(tag("th", text(heading)) for heading in HEADINGS))
    body = []
    for route, (name, *others) in zip(value["routes"], rows(value)):
        label = f" {label_of(route)}" if label_of(route) else ""
        body.append(tag("tr", tag("th", text(name + label)) + "".join(
            tag("td", text(cell)) for cell in others)))
    table = tag("table", tag("thead", head) + tag("tbody", "\n".join(body)))
    return ('<!doctype html>\n<html lang="en"><head><meta charset="utf-8">'
            '<meta name="viewport" content="width=device-width,initial-scale=1">'
            f"<title>{text(title)}: control table</title><style>{CSS}</style></head><body>\n"
            + tag("h1", text(f"Control table: {title}")) + tag("p", text(LEGEND))
            + tag("div", table, class_="scroll")
            + tag("p", text("Written by irv --csv, which is tested and not proved.")) + "\n</body></html>\n")


def csv(value: dict) -> str:
    """Returns the control table as CSV."""
    return csv_text.written([HEADINGS, *([cells.kept(cell) for cell in one] for one in rows(value))])


def write(value: dict, out: str) -> None:
    """Writes the control table as `out`.csv and `out`.html. No file is overwritten, and none left
    if one cannot be written."""
    path = Path(f"{out}.csv")
    texts = csv(value), page(value, Path(out).name)
    if Path(f"{out}.html").exists():
        raise Refused(writing.is_there(f"{out}.html"))
    writing.write_new(path, texts[0])
    try:
        writing.write_new(Path(f"{out}.html"), texts[1])
    except Refused:
        path.unlink()
        raise
