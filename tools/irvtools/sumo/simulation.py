"""Calls of netconvert and sumo, if they are installed."""

import os
import shutil
import subprocess
from pathlib import Path
from typing import List, Optional

SECONDS = 300
HOME = "/usr/share/sumo"


class SumoFault(Exception):
    """A missing program, or a fault that SUMO reports."""


def missing() -> Optional[str]:
    """Returns the program that is not installed, or `None`."""
    for name in ("netconvert", "sumo"):
        if shutil.which(name) is None:
            return name
    return None


def call(words: List[str], directory: Path) -> None:
    """Calls a program of SUMO in a directory, without validation over a network."""
    environment = {"SUMO_HOME": HOME, **os.environ}
    try:
        done = subprocess.run([*words, "-X", "never"], cwd=directory, env=environment,
                              capture_output=True, text=True, errors="replace", timeout=SECONDS,
                              check=False)
    except FileNotFoundError as fault:
        raise SumoFault(f"{words[0]} is not installed (Debian's package sumo has it)") from fault
    except subprocess.TimeoutExpired as fault:
        raise SumoFault(f"{words[0]} has no answer within {SECONDS} seconds") from fault
    if done.returncode != 0:
        first = next((line for line in done.stderr.splitlines() if line.startswith("Error")),
                     f"status {done.returncode}")
        raise SumoFault(f"{words[0]} in {directory}: {first}")


def convert(directory: Path) -> None:
    """Makes net.net.xml from the files of nodes, edges and connections."""
    call(["netconvert", "-n", "net.nod.xml", "-e", "net.edg.xml", "-x", "net.con.xml",
          "-o", "net.net.xml", "--no-turnarounds"], directory)


def simulate(directory: Path, trains: str, result: str, end: int) -> None:
    """Runs trains up to second `end`; writes result.blocks.xml and result.arrivals.xml."""
    call(["sumo", "-n", "net.net.xml", "-r", trains, "--no-step-log", "--time-to-teleport", "-1",
          "--end", str(end),
          "--railsignal-block-output", f"{result}.blocks.xml",
          "--tripinfo-output", f"{result}.arrivals.xml"], directory)
