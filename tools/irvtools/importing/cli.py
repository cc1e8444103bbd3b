"""The command line of `./irv --import`."""

import argparse
import json
import sys
from pathlib import Path
from typing import List

from irvtools.arguments import Parser, whole_number
from irvtools.calls.program import Program

from irvtools.importing.bytes_of_file import base_name
from irvtools.importing.drafting import Wishes, draft, text_of
from irvtools.importing.faults import ImportFault
from irvtools.importing.notes import DRAFT, Notes
from irvtools.importing.osm import ATTRIBUTION, read_osm
from irvtools.importing.sumo_net import read_sumo
from irvtools.importing.xtrackcad import read_xtrackcad

REFUSED = 125
PROGRAM_SECONDS = 60

FORMS = {".osm": "OpenStreetMap XML", ".net.xml": "SUMO network", ".xtc": "XTrackCAD layout"}
BOARD_METRES = {".osm": 60.0, ".net.xml": 60.0, ".xtc": 40.0}
ABSORB_METRES = {".osm": 0.0, ".net.xml": 0.0, ".xtc": 25.0}

ABOUT = """Makes a draft of a configuration, without routes, from a map or a layout. The form is \
chosen by the name of FILE:
.osm (OpenStreetMap XML), .net.xml (SUMO) or .xtc (XTrackCAD), each also with .gz or .bz2.

The exit status is 0 if the configuration and its notes were written. Otherwise nothing is \
written, and it is 125."""


def near_of(text: str):
    """Returns the three numbers of --near."""
    try:
        lat, lon, metres = (float(part) for part in text.split(","))
    except ValueError:
        raise argparse.ArgumentTypeError("LAT,LON,METRES are three numbers") from None
    if not (abs(lat) <= 89 and abs(lon) <= 180 and 0 < metres <= 1e6):
        raise argparse.ArgumentTypeError("LAT is within 89, LON within 180 degrees, METRES from "
                                         "above 0 to 1000000")
    return lat, lon, metres


def metres_of(text: str) -> float:
    """Returns a length from the arguments."""
    try:
        metres = float(text)
    except ValueError:
        metres = -1.0
    if not 0 <= metres <= 1e6:
        raise argparse.ArgumentTypeError("METRES is a number from 0 to 1000000")
    return metres


def parser() -> Parser:
    line = Parser("irv --import", ABOUT, REFUSED, "irv --import FILE [OPTIONS]")
    line.add_argument("file", metavar="FILE", type=Path, help="the map or layout")
    line.once("--out", "the configuration; the notes are written beside it, as NAME.notes.json "
              "(FILE's name, in this directory)", metavar="NAME.json", type=Path)
    line.once("--near", "only tracks within METRES of a place, for OpenStreetMap (all tracks)",
              metavar="LAT,LON,METRES", type=near_of)
    line.once("--signals", "where boards come from: the map's signals and the borders, a rule, or "
              "both (both)", choices=("map", "rule", "both"), default="both")
    line.once("--part", "which connected part of the tracks, the largest first (1)", metavar="N",
              type=whole_number(1, 999999), default=1)
    line.add_argument("--cut", metavar="OBJECT", action="append", default=[],
                      help="cut the track with this id, as a message names it; may be given again")
    line.flag("--cut-loops", "cut reversing loops and triangles, which are refused otherwise")
    line.once("--board-metres", "least length of a section before a point that gets a board by "
              "rule (60; XTrackCAD: 40)", metavar="METRES", type=metres_of)
    line.once("--absorb-metres", "sections between two points that are shorter become part of the "
              "points (0; XTrackCAD: 25)", metavar="METRES", type=metres_of)
    line.program()
    return line


def form_of(path: Path) -> str:
    """Returns the suffix of a known format."""
    base = base_name(path.name)
    for suffix in FORMS:
        if base.endswith(suffix):
            return suffix
    raise ImportFault(f"{path}: the name has to end with {', '.join(FORMS)}, or with one of "
                      f"these and .gz or .bz2")


def imported(options, suffix: str):
    """Returns the configuration and the notes of a file."""
    notes = Notes(options.file.name, FORMS[suffix], ATTRIBUTION if suffix == ".osm" else None)
    if options.near and suffix != ".osm":
        raise ImportFault(f"--near: a {FORMS[suffix]} has no latitude and longitude")
    if suffix == ".osm":
        tracks = read_osm(options.file, options.near, notes)
    else:
        read = read_sumo if suffix == ".net.xml" else read_xtrackcad
        tracks = read(options.file, notes)
    wishes = Wishes(options.signals, options.part, options.cut, options.cut_loops,
                    BOARD_METRES[suffix] if options.board_metres is None
                    else options.board_metres,
                    ABSORB_METRES[suffix] if options.absorb_metres is None
                    else options.absorb_metres)
    return draft(tracks, wishes, notes), notes


def check(file: Path, text: str) -> str:
    """Returns the program's answer about the draft. Fails if the draft breaks a rule."""
    program = Program(file.absolute(), text.encode())
    answer = program.ask(["check"], PROGRAM_SECONDS)
    if answer.status != 0:
        raise ImportFault(f"the draft is not written: irv check answers: {answer.said}")
    answer = program.ask(["table"], PROGRAM_SECONDS)
    if answer.status != 0:
        return f"irv check: clean; irv table: {answer.said}"
    return f"irv check: clean; irv table: {len(json.loads(answer.output)['routes'])} routes"


def write(path: Path, text: str) -> None:
    """Writes a new file. If that fails, no file remains."""
    try:
        with open(path, "x", encoding="utf-8") as stream:
            try:
                stream.write(text)
                stream.flush()
            except OSError:
                path.unlink()
                raise
    except FileExistsError as fault:
        raise ImportFault(f"{path} exists: remove it, or choose another name with --out") from fault
    except OSError as fault:
        raise ImportFault(f"cannot write {path}: {fault.strerror}") from fault


def summary(configuration: dict, notes: Notes) -> str:
    """Returns a line of counts."""
    points = sum(one["kind"] == "point" for one in configuration["sections"])
    own, made = (notes.count("board", by=by) for by in ("data", "rule"))
    return (f"{len(configuration['sections'])} sections, {points} points, {own + made} boards "
            f"({own} from the data, {made} by rule)")


def noted(notes: Notes) -> str:
    """Returns a line of changes."""
    kinds = ("cut", "absorbed", "guessed", "crossing", "left out")
    return ", ".join(f"{notes.count(kind)} {kind}" for kind in kinds)


def run(options) -> None:
    """Imports a file, and prints what was written."""
    suffix = form_of(options.file)
    out = options.out or Path(base_name(options.file.name)[:-len(suffix)] + ".json")
    beside = out.with_name((out.name[:-5] if out.name.endswith(".json") else out.name)
                           + ".notes.json")
    for path in (out, beside):
        if path.exists():
            raise ImportFault(f"{path} exists: remove it, or choose another name with --out")
    configuration, notes = imported(options, suffix)
    text = text_of(configuration)
    said = check(options.program, text)
    write(out, text)
    try:
        write(beside, notes.text())
    except ImportFault:
        out.unlink()
        raise
    print(f"{out}: {summary(configuration, notes)}\n{beside}: {noted(notes)}\n{said}")
    if notes.attribution:
        print(f"data: {notes.attribution}")
    print(DRAFT)


def main(words: List[str]) -> int:
    """Runs the import. Returns the exit status."""
    options = parser().parse_args(words)
    if not options.program.is_file():
        print(f"irv --import: the program {options.program} does not exist; build it with "
              "./irv --build", file=sys.stderr)
        return REFUSED
    try:
        run(options)
    except ImportFault as fault:
        print(f"irv --import: {fault}", file=sys.stderr)
        return REFUSED
    return 0
