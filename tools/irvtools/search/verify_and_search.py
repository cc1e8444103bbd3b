"""Runs verify and the search. If a rule on which safety depends is broken, both begin at once, and
a hazard that one finds ends the other."""

from __future__ import annotations

import time
from typing import TYPE_CHECKING

from irvtools.calls.background import Beside
from irvtools.calls.interruption import held, released
from irvtools.search.parallel_search import Searchers

if TYPE_CHECKING:
    from irvtools.html.report import Report

GRACE = 2.0             # verify's seconds after a found run
TURN = 0.05             # between two looks
NO_VERDICT = (None, 2, 3, 4)     # statuses of verify without a decision about hazards
UNEXPECTED = (2, 3)     # unexpected if no rule on which safety depends is broken


class Found:
    """The result: verify's answer, and a run of the search or `None`. `is_first` is whether the run
    came first, `said` is replay's answer to it, and `fault` what is wrong with that."""

    def __init__(self):
        self.answer = self.run = self.searchers = self.said = self.fault = None
        self.is_first = False


def search(page: Report, words: list[str]) -> Found:
    """Asks verify with these arguments, and searches."""
    found, options = Found(), page.options
    is_beside = page.is_endangered and options.search_seconds > 0
    with Searchers(page.plant, page.suspects) as found.searchers:
        with held():
            call = Beside(page.program, words)
            try:
                with released():
                    if is_beside:
                        found.searchers.start(options.search_seconds)
                    both(found, call, page)
            finally:
                found.answer = call.end("ended by the page")
        if options.search_seconds and not is_beside and found.answer.status in UNEXPECTED:
            found.searchers.start(options.search_seconds)
            found.run = found.searchers.wait(options.search_seconds + 1)
    return found


def both(found, call, page):
    """Waits for the call and the search, until a hazard is found or both have ended."""
    wait = page.options.verify_seconds
    until = call.begin + wait
    while True:
        answer, run = call.poll(), found.searchers.wait(TURN)
        if run is not None and found.run is None:
            found.run, found.is_first = run, answer is None
            until = min(until, time.monotonic() + GRACE)
        if answer is None and time.monotonic() >= until:
            after = page.time(f" after {call.seconds:.0f} seconds")
            answer = call.end(
                f"ended{after}, because the search found a run to a hazard"
                if found.run else f"no answer within {wait:g} seconds (--verify-seconds)")
        if answer is not None and (answer.status not in NO_VERDICT or found.searchers.is_over):
            return
        if answer is None and found.searchers.is_over:
            time.sleep(TURN)
