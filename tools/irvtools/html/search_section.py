"""The search's result on the page."""

from __future__ import annotations

from typing import TYPE_CHECKING

from irvtools.calls.verdict import Answered
from irvtools.model.events import hazard
from irvtools.model.events import replayed as states_of
from irvtools.html.markup import tag, text
from irvtools.html.run_frames import NOTE, RunView, trouble
from irvtools.model.state import run_text
from irvtools.model.descriptions import hazard_words
from irvtools.search.verify_and_search import Found

if TYPE_CHECKING:
    from irvtools.html.report import Report


def add_finding(page: Report, view: RunView, found: Found) -> bool:
    """Counts the run that the search found for the verdict, if replay answers the same hazard.
    Returns whether there is such a run."""
    if found.run is None:
        return False
    states = states_of(page.plant, found.run)
    own = view.own(states[-1]) if states else "no run"
    found.said = view.answer(found.run)
    if found.said != own or not found.said.startswith("hazard "):
        found.fault = (f"irv replay answers “{found.said}” for the run that the search found, but "
                       f"the page's "
                       f"own model says “{own}”.")
        return False
    page.answered.append(Answered("replay", view.columns, 0, f"{found.said}\n",
                                  run=run_text(page.plant, found.run)))
    sentence = hazard_words(page.plant, hazard(page.plant, states[-1]))
    page.sum_up("Search", f"a run of {len(found.run)} events from the initial state to a hazard. "
                          f"{sentence} "
                          f"irv replay answers: {found.said}")
    return True


def search_part(page: Report, view: RunView, found: Found) -> None:
    """Adds the search and its run."""
    searchers = found.searchers
    if not page.options.search_seconds or not searchers.seconds and found.run is None:
        why = why_none(page, found) if page.options.search_seconds else "No search was asked for."
        if why:
            page.add(title(), tag("p", text(why), class_="own"))
        return
    page.add(title())
    took = page.time(f"{searchers.seconds:.1f} s, ")
    tried = (f"{searchers.runs} random runs of up to {searchers.longest} events, "
             f"{searchers.events} events "
             f"in all, {took}{searchers.count} searches in parallel")
    if found.run is None:
        page.own("It ended when verify answered." if found.answer.status == 1 else
                 f"No hazard was found in {tried}. This does not show that there is none.")
        return
    if found.fault:
        page.add(trouble(f"The page stops here. {found.fault}"))
        return
    is_drawn = found.answer.status != 1     # otherwise verify's own run, which is no longer
    drawn = "The answer of irv replay is beside each step. For the whole run it is" if is_drawn else \
        "verify's own run is drawn above. For this one irv replay answers"
    page.own(f"The search found a run, in {tried}. The run was shortened, then tails were added, "
             f"so that "
             f"trains have a credible length: it has {len(found.run)} events, and it need not be "
             f"the "
             f"shortest. It is the page's own. {drawn}: {found.said}.")
    if is_drawn:
        page.add(tag("p", text(NOTE), class_="small lead"), view.frames(found.run))
    page.add(tag("p", text("The run, for irv replay:"), class_="small lead"),
             tag("pre", text(run_text(page.plant, found.run)), class_="run"))


def title():
    """Returns the part's title."""
    return tag("h3", text("Search for a run to a hazard"), id="search")


def why_none(page, found):
    """Returns why no search began if verify left the question open."""
    if found.answer.status == 1:
        return ""
    if page.is_refused:
        return "No search: no rule is broken on which safety depends."
    return ("No search: check with strict columns answered “clean”, which proves that no run from "
            "the "
            "initial state ends in a hazard.")
