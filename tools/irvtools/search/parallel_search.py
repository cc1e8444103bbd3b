"""Runs parallel searches, each in its own process with its own seed. The first to find a run to a
hazard ends the others.

    with Searchers(plant, suspects) as searchers:
        searchers.start(seconds)
        ...
        run = searchers.wait(until)       # or poll, as often as one likes

All processes end when a run is found, their time is over, `stop` is called, the block is left, or
their parent process ends in any way."""

from __future__ import annotations

import multiprocessing
import os
import signal
import time
from multiprocessing import connection

from irvtools.calls.interruption import held
from irvtools.search.random_search import RandomSearch

SLICE = 0.5             # seconds between reports, which show if a process is still wanted


def processors() -> int:
    """Returns how many processors this process may use."""
    try:
        return len(os.sched_getaffinity(0))
    except AttributeError:
        return os.cpu_count() or 1


def searching(plant, seed, suspects, seconds, pipe, parents):
    """Searches in slices of time, and sends figures and run after each. `parents` are the parent's
    pipe ends, closed here so that sending fails if the parent has ended."""
    for number in (signal.SIGINT, signal.SIGHUP):       # parent ends this process
        signal.signal(number, signal.SIG_IGN)
    signal.signal(signal.SIGTERM, signal.SIG_DFL)
    for other in parents:
        other.close()
    search, run = RandomSearch(plant, seed, suspects, keeps_uses=False), None
    end = time.monotonic() + seconds
    try:
        while run is None and time.monotonic() < end:
            run = search.for_hazard(min(SLICE, end - time.monotonic()))
            pipe.send((search.runs, search.events, search.longest, run))
    except (BrokenPipeError, ConnectionResetError):
        pass                    # parent ended
    pipe.close()


class Searchers:
    """Parallel searches. `run` is the found run or `None`, and `found_by` its seed. `runs`,
    `events` and `longest` are totals of all searches, `seconds` the elapsed time."""

    def __init__(self, plant, suspects=(), seed=1, count=None):
        self.plant, self.suspects, self.seed = plant, list(suspects), seed
        self.count = count or processors()
        self.run = self.found_by = self.begin = None
        self.seconds = 0.0
        self.processes, self.figures, self.seeds = {}, {}, {}

    def __enter__(self):
        return self

    def __exit__(self, *_):
        self.stop()

    def start(self, seconds):
        """Starts the processes, for `seconds`."""
        context, self.begin = multiprocessing.get_context("fork"), time.monotonic()
        for seed in range(self.seed, self.seed + self.count):
            listens, tells = context.Pipe(duplex=False)
            process = context.Process(
                target=searching, daemon=True,
                args=(self.plant, seed, self.suspects, seconds, tells, [*self.processes, listens]))
            with held():
                process.start()
                tells.close()
                self.processes[listens], self.seeds[listens] = process, seed

    @property
    def is_over(self):
        """Returns whether no process is left."""
        return not self.processes

    def poll(self):
        """Takes the reports so far without waiting. Returns the run, if found."""
        return self.wait(0)

    def wait(self, seconds):
        """Waits at most `seconds`. Returns the run once found, or `None` if the time or all
        searches end first."""
        until = time.monotonic() + seconds
        while self.processes:
            ready = connection.wait(list(self.processes), max(0, until - time.monotonic()))
            for pipe in ready:
                self.listen(pipe)
            if not ready or time.monotonic() >= until:
                break
        return self.run

    def listen(self, pipe):
        """Takes a process's report. A run ends all searches."""
        if pipe not in self.processes:
            return
        try:
            *self.figures[pipe], run = pipe.recv()
        except (EOFError, OSError):
            self.end(pipe)
            return
        if run is not None and self.run is None:
            self.run, self.found_by = run, self.seeds[pipe]
            self.stop()

    def end(self, pipe):
        """Ends a process. It has nothing to clean up, and loses other signals when it starts."""
        process = self.processes.pop(pipe)
        process.kill()
        process.join()
        pipe.close()
        self.seconds = time.monotonic() - self.begin

    def stop(self):
        """Ends all remaining processes."""
        for process in self.processes.values():
            process.kill()
        for pipe in list(self.processes):
            self.end(pipe)

    def figure(self, place):
        """Returns one figure of all searches."""
        return [figures[place] for figures in self.figures.values()]

    @property
    def runs(self):
        """Returns the number of runs."""
        return sum(self.figure(0))

    @property
    def events(self):
        """Returns the number of events."""
        return sum(self.figure(1))

    @property
    def longest(self):
        """Returns the longest run's number of events."""
        return max(self.figure(2), default=0)
