"""The contrast of colours, as defined by the accessibility guidelines WCAG."""

from __future__ import annotations

import re


def channels(colour: str) -> tuple:
    """Returns the red, green and blue of `#rrggbb`, from 0 to 255."""
    return tuple(int(colour[place:place + 2], 16) for place in (1, 3, 5))


def of_style(colour: str) -> str:
    """Returns a browser's `rgb(r, g, b)` as `#rrggbb`."""
    return "#" + "".join(f"{int(float(part)):02x}" for part in re.findall(r"[\d.]+", colour)[:3])


def as_style(colour: str) -> str:
    """Returns a colour in a browser's notation."""
    return "rgb({}, {}, {})".format(*channels(colour))


def luminance(colour: str) -> float:
    """Returns the relative luminance of a colour."""
    parts = [part / 255 for part in channels(colour)]
    red, green, blue = (part / 12.92 if part <= 0.03928 else ((part + 0.055) / 1.055) ** 2.4 for part in parts)
    return 0.2126 * red + 0.7152 * green + 0.0722 * blue


def ratio(one: str, other: str) -> float:
    """Returns the contrast of two colours, from 1 to 21."""
    low, high = sorted((luminance(one), luminance(other)))
    return (high + 0.05) / (low + 0.05)
