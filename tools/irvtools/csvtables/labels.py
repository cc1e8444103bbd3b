"""Labels of sections, boards and routes, shown beside names on drawings. Only the CSV files have
them: a configuration has no member for them."""

from __future__ import annotations

import copy
from dataclasses import dataclass, field

from irvtools.csvtables import columns, reading
from irvtools.model.plant import Plant


@dataclass(frozen=True)
class Labels:
    """Labels by name."""

    sections: dict[str, str] = field(default_factory=dict)
    boards: dict[str, str] = field(default_factory=dict)
    routes: dict[str, str] = field(default_factory=dict)


def of_value(value: dict) -> Labels:
    """Returns the labels of a configuration from CSV files."""
    found = Labels()
    for section in value["sections"]:
        add(found.sections, section["name"], section, columns.LABEL)
        for side, heading in columns.BOARD_LABELS.items():
            add(found.boards, section.get(f"board_{side}"), section, heading)
    for route in value["routes"]:
        add(found.routes, route["name"], route, columns.LABEL)
    return found


def add(labels: dict[str, str], name: str | None, entry: dict, heading: str) -> None:
    """Adds the label in a column of an entry, if both exist."""
    label = " ".join(entry.get(columns.EXTRA, {}).get(heading, "").split())
    if name is not None and label:
        labels[name] = label


def read(directory: str) -> Labels:
    """Returns the labels in a directory's CSV files."""
    return of_value(reading.read_directory(directory))


def labelled(plant: Plant, labels: Labels) -> Plant:
    """Returns a plant for drawings, with labels after the names of sections and boards. Nothing
    refers to these names."""
    if not labels.sections and not labels.boards:
        return plant
    drawn = copy.copy(plant)
    drawn.sections = [with_label(one, labels.sections) for one in plant.sections]
    drawn.boards = [with_label(one, labels.boards) for one in plant.boards]
    return drawn


def with_label(thing, labels: dict[str, str]):
    """Returns a section or board with any label after its name."""
    if thing.name not in labels:
        return thing
    named = copy.copy(thing)
    named.name = f"{thing.name} {labels[thing.name]}"
    return named
