"""A configuration of the greatest length that is read, for the page's time and size: 256 sections,
256 routes, and the longest names."""

import json

from irvtools.generators.configurations import document, linear, made_stations

MOST_BYTES = 4194304
LONG = 32
STATIONS = 32
SECTIONS = 256


def lengthened(value, names):
    """Returns a value with each name padded to the greatest length."""
    if isinstance(value, dict):
        return {key: lengthened(one, names) for key, one in value.items()}
    if isinstance(value, list):
        return [lengthened(one, names) for one in value]
    return value.ljust(LONG, "_") if value in names else value


def siding(count):
    """Returns a separate line with a board at each end."""
    names = [".", *(f"x{i}" for i in range(count)), "."]
    return [linear(name, down, up, "xD" if up == "." else ".", "xU" if down == "." else ".")
            for down, name, up in zip(names, names[1:], names[2:])]


def stations():
    """Returns the sections and routes of a row of stations, and a line beside them."""
    sections, routes = made_stations(STATIONS)
    return sections + siding(SECTIONS - len(sections)), routes


def lengthened_stations():
    """Returns the same as a document with long names. Each route lists all others as conflicts."""
    sections, routes = stations()
    for route in routes:
        route["conflicts"] = [other["name"] for other in routes if other is not route]
    names = {one["name"] for one in sections + routes}
    names |= {section[side] for section in sections for side in ("board_down", "board_up")
              if section.get(side)}
    return lengthened(json.loads(document(sections, routes)), names)


def given():
    """Returns its bytes, padded with blanks."""
    return json.dumps(lengthened_stations()).encode().ljust(MOST_BYTES)
