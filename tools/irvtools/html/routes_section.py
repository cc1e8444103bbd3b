"""The routes that a train can use, on the page."""

from __future__ import annotations

import time
from concurrent.futures import ThreadPoolExecutor
from typing import TYPE_CHECKING

from irvtools.search.random_search import RandomSearch
from irvtools.html.markup import table, tag, text
from irvtools.html.run_frames import AT_ONCE, RunView
from irvtools.model.state import event_line
from irvtools.search.route_uses import uses
from irvtools.model.descriptions import counted

if TYPE_CHECKING:
    from irvtools.html.report import Report

USE_SECONDS = 5         # to find the runs that use routes
SEARCH_SECONDS = 2      # for random runs through others
ANSWER_SECONDS = 5      # for their answers


def routes_part(page: Report, columns: str) -> list[int]:
    """Adds the routes that a train can use. Returns the others, if there was time to look for all."""
    page.head("Routes that a train can use", "routes")
    if not page.plant.routes:
        page.add(tag("p", text("The table has no routes.")))
        return []
    found, is_all = uses(page.plant, USE_SECONDS)
    if len(found) < len(page.plant.routes) and page.options.search_seconds:
        search = RandomSearch(page.plant, suspects=page.suspects)
        search.for_hazard(min(SEARCH_SECONDS, page.options.search_seconds))
        found = {**search.used, **found}
    answers = answered(RunView(page, columns, "use"), found)
    good = sum(said == "no hazard" for said in answers.values())
    rows = [[route_cell(route), use_cell(page.plant, found.get(r), answers.get(r))]
            for r, route in enumerate(page.plant.routes)]
    is_whole = is_all and len(answers) == len(found)
    introduce(page, good, len(rows), is_whole)
    if not is_whole:
        page.own(f"Left out, because there was no time: "
                 f"{'' if is_all else 'runs through further routes, and '}"
                 f"answers of irv replay to {counted(len(found) - len(answers), 'run')}.")
    page.add(table(["route", "a train uses it"], rows, "routes"))
    return [r for r in range(len(rows)) if r not in found] if is_all else []


def answered(view, found):
    """Returns replay's answers to runs, as many as time allows."""
    answers, left, end = {}, sorted(found), time.monotonic() + ANSWER_SECONDS
    with ThreadPoolExecutor(AT_ONCE) as pool:
        while left and time.monotonic() < end:
            some, left = left[:AT_ONCE], left[AT_ONCE:]
            answers.update(zip(some, pool.map(lambda r: view.answer(found[r]), some)))
    return answers


def introduce(page, good, count, is_whole):
    """Explains the table of routes."""
    more = "" if is_whole else "; for others there was no time"
    page.sum_up("Routes that a train can use", f"{good} of {count}{more}")
    page.add(tag("p", text(
        f"For {good} of {count} routes the page found a run from the initial state in which one "
        f"train uses "
        "the whole route, from its request to its finish. irv replay answered “no hazard” to each "
        "of these "
        "runs. A route without such a run may be unusable. Usability is not part of safety: if "
        "each border "
        "has its board (C7) and no board ever opens, no train moves on, so no two trains meet.")))


def route_cell(route):
    """Returns a route's number, name and ends."""
    ends = f"from {route.member['source']} to {route.member['destination'] or 'out of the area'}"
    return "", (tag("div", text(f"{route.number}: ") + tag("b", text(route.name)))
                + tag("div", text(ends)))


def use_cell(plant, run, said):
    """Returns the run that uses a route."""
    if run is None:
        return "bad", text("not found")
    if not said:
        return "", text("found, but irv replay was not asked")
    if said != "no hazard":
        return "bad", text(f"irv replay: {said}")
    events = "\n".join(event_line(plant, event) for event in run)
    return "", tag("details", tag("summary", text(f"{len(run)} events; irv replay: {said}"))
                   + tag("pre", text(events)))
