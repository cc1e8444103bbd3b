"""Reports a batch's progress on standard error: on a terminal in one overwritten line, otherwise
now and then in a new line."""

import sys
import time

TERMINAL_SECONDS, OTHER_SECONDS = 1, 10         # between two messages
CLEAR = "\r\x1b[K"  # clears a terminal's line, from its beginning


class Progress:
    """Messages about the progress of a call."""

    def __init__(self, stream=None):
        self.stream = stream or sys.stderr
        self.is_terminal = self.stream.isatty()
        self.seconds = TERMINAL_SECONDS if self.is_terminal else OTHER_SECONDS
        self.begin, self.last = time.monotonic(), ""

    def step(self, words):
        """Shows the current step on a terminal."""
        if self.is_terminal:
            self.stream.write(f"{CLEAR}irv --batch: {words}")
            self.stream.flush()

    def count(self, done, total):
        """Shows how many jobs are done, if that has changed, and on a terminal the time."""
        words = f"{done} of {total} jobs"
        if self.is_terminal:
            self.step(f"{words} done, {clock(time.monotonic() - self.begin)}")
        elif words != self.last and done:
            print(f"irv --batch: {words}", file=self.stream, flush=True)
        self.last = words

    def end(self):
        """Clears the line on a terminal."""
        if self.is_terminal:
            self.stream.write(CLEAR)
            self.stream.flush()


def clock(seconds):
    """Returns a time in minutes and seconds."""
    return f"{int(seconds) // 60}:{int(seconds) % 60:02d}"
