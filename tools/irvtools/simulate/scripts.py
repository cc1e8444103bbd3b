"""The simulator's script: files of this directory in one text, and the plant as they read it."""

from __future__ import annotations

import json
from pathlib import Path
from typing import Any, Iterable

from irvtools.html.style import CSS
from irvtools.model.plant import Plant

HERE = Path(__file__).resolve().parent
# files about plants, without a document; each uses those before it
MODEL = ("plant", "route_events", "train_events", "model", "texts", "waiting", "words", "simulator")
# files of the view
VIEW = ("elements", "train_lines", "plan", "lists", "choosing", "files", "keys", "page")


def script(names: Iterable[str]) -> str:
    """Returns these files as one script."""
    parts = [(HERE / f"{name}.js").read_text(encoding="utf-8") for name in names]
    return '"use strict";\n' + "\n".join(parts)


def style() -> str:
    """Returns the page's style: the report's and its own."""
    return CSS + (HERE / "simulator.css").read_text(encoding="utf-8")


def section_value(section):
    """Returns a section by numbers: neighbours by leg, or by side; null if missing."""
    keys = ("stem", "plus", "minus") if section.is_point else ("down", "up")
    return {"name": section.name, "point": section.is_point, "faces": section.faces,
            "ends": {key: section.neighbours.get(key) for key in keys}}


def route_value(route):
    """Returns a route by numbers."""
    return {"name": route.name, "source": route.source, "destination": route.destination,
            "path": route.path, "overlap": route.overlap, "points": route.points,
            "conflicts": route.conflicts, "protecting_points": route.protecting_points,
            "protecting_boards": route.protecting_boards}


def plant_value(plant: Plant) -> dict[str, list[dict[str, Any]]]:
    """Returns a plant as the script reads it."""
    return {"sections": [section_value(section) for section in plant.sections],
            "boards": [{"name": board.name, "section": board.section, "direction": board.direction}
                       for board in plant.boards],
            "routes": [route_value(route) for route in plant.routes]}


def as_json(value: Any) -> str:
    """Returns a value as JSON for a script, without any end of an element."""
    text = json.dumps(value, separators=(",", ":"), ensure_ascii=True)
    return text.replace("<", "\\u003c").replace(">", "\\u003e").replace("&", "\\u0026")


def page() -> str:
    """Returns the page's body, with marks for the plant's contents."""
    return (HERE / "simulator.html").read_text(encoding="utf-8")
