"""The pages of tables with a hazard: their time, and whether they show it."""

import statistics
import time

from tests.support import markup_check
from tests.support.html_reports import page, plain

MOST_SECONDS = 20


class TimedPages:
    """The seconds and faults of at most `most` pages."""

    def __init__(self, program, most):
        self.program, self.most = program, most
        self.seconds, self.wrong = [], []

    def take(self, name, given):
        """Makes a table's page, unless `most` pages exist."""
        if len(self.seconds) == self.most:
            return
        begin = time.monotonic()
        text, said = page(self.program, given)
        seconds = time.monotonic() - begin
        self.seconds.append(seconds)
        print(f"    its page: {seconds:.1f} s, {len(text) / 1e6:.1f} MB, "
              f"{said.strip()}", flush=True)
        self.wrong += [f"{name}: its page: {fault}" for fault in faults(text, said)]
        if seconds > MOST_SECONDS:
            self.wrong.append(f"{name}: its page took {seconds:.1f} s")

    def told(self):
        """Returns the figures in a line."""
        return (f"pages: {len(self.seconds)}; seconds: median "
                f"{statistics.median(self.seconds):.1f}, "
                f"most {max(self.seconds):.1f}")


def faults(text, said):
    """Yields the faults of a page about a hazard and of the printed line."""
    yield from markup_check.faults(text)
    first = plain(text.partition('id="verdict"')[2].partition(">")[2].partition("</p>")[0])
    if not first.startswith("HAZARD FOUND "):
        yield f"the first line is {first!r}"
    if ": HAZARD FOUND. " not in said:
        yield f"printed is {said!r}"
    if 'id="hazard"' not in text or "The page stops here" in text:
        yield "the hazard isn't drawn"
