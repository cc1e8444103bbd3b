"""Tests of the comparison page: the routes it draws, and reading it on a phone."""

import copy
import json

from irvtools.csvtables import comparing
from irvtools.csvtables.comparison_page import Picture
from tests.html.reading_tests import PHONE, SUMMARY, in_browser
from tests.support.html_reports import shown_at
from tests.support.report_plants import plants
from tests.support.harness import test_case


def changed(member, value):
    """Returns a station, and the same with another entry in its first route."""
    old = json.loads(plants()["station"])
    new = copy.deepcopy(old)
    new["routes"][0][member] = value
    return old, new


def compared(old, new):
    """Returns the page of a comparison."""
    return Picture(comparing.Comparison(old, new), "old", "new").page()


def drawn(old, new):
    """Returns how many plans a comparison has besides those of both networks."""
    return compared(old, new).count('<svg class="plan"') - 2


def check_drawn_routes(_, __):
    """Routes are drawn only if their path, overlap or points differ, or the network."""
    old, new = changed("conflicts", [])
    other = copy.deepcopy(new)
    other["sections"][0]["board_up"], other["routes"][0]["source"] = "m1x", "m1x"
    for route in other["routes"]:
        route["source"] = "m1x" if route["source"] == "m1" else route["source"]
    for name, pair, count in (("conflicts", (old, new), 0), ("points", changed("points", []), 2),
                              ("overlap", changed("overlap", ["b2"]), 2)):
        if drawn(*pair) != count:
            yield f"{name}: {drawn(*pair)} pictures, not {count}"
    if drawn(old, other) < 2:
        yield f"a network that differs: {drawn(old, other)} pictures"


@in_browser
def check_phone(_, running):
    """On a phone the page is as wide as the screen."""
    found = shown_at(running, compared(*changed("points", [])), SUMMARY, *PHONE)
    if found["width"] > PHONE[0]:
        yield f"the page is {found['width']} pixels wide"


ComparisonTests = test_case("ComparisonTests", [check_drawn_routes, check_phone])
