"""The command line of `./irv --sumo`."""

import json
import sys
from pathlib import Path
from typing import Dict, List, Tuple

from irvtools.arguments import Parser, standard_input, whole_number
from irvtools.calls.program import Program
from irvtools.importing.faults import ImportFault
from irvtools.sumo import driveways, simulation, trains
from irvtools.sumo.comparison import LIMITS, Comparison
from irvtools.sumo.net_files import NetFiles
from irvtools.sumo.ways import Network, TooManyWays

CHECK_SECONDS = 60
SHOWN = 40
AGREES, DIFFERS, NOT_DONE = 0, 1, 125

ABOUT = """Writes a plant as a railway network of SUMO: nodes, edges, connections and trains, one \
for each route or those of a
scenario. With --compare it runs SUMO and compares its driveways with the table, by names.

The exit status is 0 if the files were written and nothing differs, 1 if something differs, \
otherwise 125."""


class NotDone(Exception):
    """A fault of the input or of SUMO."""


def parser() -> Parser:
    line = Parser("irv --sumo", ABOUT, NOT_DONE,
                  "irv --sumo DIRECTORY [OPTIONS] < CONFIGURATION")
    line.add_argument("directory", metavar="DIRECTORY", type=Path,
                      help="where the files are written; it must be empty or not exist")
    line.flag("--compare", "run netconvert and sumo, and compare what they find with the table")
    line.once("--scenario", "the trains of this scenario, in the form that irv drive reads (one "
              "train for each route)", metavar="FILE", type=Path)
    line.once("--metres", "the length of every section (400)", metavar="N",
              type=whole_number(100, 100000), default=400)
    line.program()
    return line


def plant_of(program: Path, given: bytes) -> dict:
    """Returns the configuration, which must pass `irv check --columns free`."""
    answer = Program(program.absolute(), given).ask(["check", "--columns", "free"], CHECK_SECONDS)
    if answer.status != 0:
        raise NotDone("the configuration is rejected: irv check --columns free answers: "
                      f"{answer.said}")
    return json.loads(given)


def prepared(directory: Path) -> None:
    """Makes the directory; fails if it has contents."""
    try:
        directory.mkdir(parents=True, exist_ok=True)
        if any(directory.iterdir()):
            raise NotDone(f"{directory} is not empty: choose another directory")
    except OSError as fault:
        raise NotDone(f"cannot use {directory}: {fault.strerror}") from fault


def train_list(options, configuration: dict, network: Network):
    """Returns the trains of the export, and lines about routes without one."""
    if options.scenario is None:
        return trains.of_routes(configuration, network, float(options.metres))
    try:
        text = options.scenario.read_text(encoding="utf-8")
        return trains.of_scenario(text, configuration, network)
    except (OSError, UnicodeError) as fault:
        raise NotDone(f"cannot read {options.scenario}: {fault}") from fault
    except trains.SceneFault as fault:
        raise NotDone(f"{options.scenario}: {fault}") from fault


def written(directory: Path, texts: Dict[str, str]) -> None:
    """Writes files of the directory."""
    try:
        for name, text in texts.items():
            (directory / name).write_text(text, encoding="ascii")
    except OSError as fault:
        raise NotDone(f"cannot write in {directory}: {fault.strerror}") from fault


def compared(directory: Path, configuration: dict, files: NetFiles, found,
             ways) -> Tuple[List[str], List[str]]:
    """Runs SUMO; returns the lines of counts and of differences."""
    simulation.convert(directory)
    for name, group in (("trains", found), ("ways", ways)):
        simulation.simulate(directory, f"{name}.rou.xml", name,
                            trains.end_of(group, files.metres))
    here = driveways.arrived(directory / "trains.arrivals.xml")
    late = [f"train {one.name} does not arrive" for one in found if one.name not in here]
    comparison = Comparison(configuration["routes"],
                            driveways.driveways(directory / "ways.blocks.xml", files))
    counts = comparison.summary() + [f"{len(found) - len(late)} of {len(found)} trains arrive",
                                     LIMITS]
    return counts, comparison.differences() + late


def ways_for(options, network: Network) -> list:
    """Returns the trains of any comparison. Fails without SUMO."""
    if not options.compare:
        return []
    absent = simulation.missing()
    if absent:
        raise NotDone(f"{absent} is not installed (Debian's package sumo has it); nothing is "
                      f"written")
    return trains.of_ways(network, float(options.metres))


def export(options, given: bytes) -> int:
    """Writes the files, and compares if asked; returns the exit status."""
    configuration = plant_of(options.program, given)
    network = Network(configuration)
    files = NetFiles(network, float(options.metres))
    found, lines = train_list(options, configuration, network)
    ways, counts = ways_for(options, network), []
    texts = {**files.texts(), "trains.rou.xml": trains.text_of(found, files)}
    if options.compare:
        texts["ways.rou.xml"] = trains.text_of(ways, files)
    prepared(options.directory)
    written(options.directory, texts)
    if options.compare:
        try:
            counts, more = compared(options.directory, configuration, files, found, ways)
            lines += more
        except (simulation.SumoFault, ImportFault):
            for path in options.directory.iterdir():
                path.unlink()
            raise
    print(f"{options.directory}: {len(files.nodes)} nodes, {len(files.edges)} edges, "
          f"{len(files.connections)} connections, {len(found)} trains")
    for line in counts + [f"differs: {one}" for one in lines[:SHOWN]]:
        print(line)
    if len(lines) > SHOWN:
        print(f"differs: and {len(lines) - SHOWN} more")
    return DIFFERS if lines else AGREES


def main(words: List[str]) -> int:
    """Exports as asked; returns the exit status."""
    options = parser().parse_args(words)
    if not options.program.is_file():
        print(f"irv --sumo: the program {options.program} does not exist; build it with "
              "./irv --build", file=sys.stderr)
        return NOT_DONE
    try:
        return export(options, standard_input("irv --sumo", NOT_DONE))
    except (NotDone, TooManyWays, simulation.SumoFault, ImportFault) as fault:
        print(f"irv --sumo: {fault}", file=sys.stderr)
        return NOT_DONE
