"""The command line of `irv --search`: searches randomly for a run to a hazard."""

import sys

from irvtools.arguments import Parser, standard_input, whole_number
from irvtools.calls.interruption import Interrupted, interruptible
from irvtools.calls.program import Program, replay_line
from irvtools.model.events import hazard, replayed
from irvtools.model.plant import Plant
from irvtools.model.state import run_text
from irvtools.rules import broken_rules, schema_rules
from irvtools.search.parallel_search import Searchers, processors
from irvtools.search.random_search import suspects_of

CHECK_SECONDS = 60
MOST_PROCESSES = 256
FOUND, NONE_FOUND, NO_ANSWER = range(3)


def parser():
    line = Parser("irv --search", "Searches at random for a run from the initial state to a "
                                  "hazard, "
                  "shortens it until no event can be left out, and\nprints its text. Places near "
                  "broken rules are searched first. On standard error it prints what `irv replay`\n"
                  "answers to the run; only that is proved. A search that finds none shows "
                  "nothing.\n\nThe exit status is 0 if a run was printed that replay answered with "
                  "a "
                  "hazard, 1 if none was found, otherwise 2.", NO_ANSWER,
                  "irv --search [OPTIONS] < CONFIGURATION")
    line.once("--seconds", "how long it searches (60)", default=60, metavar="N",
              type=whole_number(0, 999999999))
    line.once("--seed", "the first process's seed; the others count up from it (1)", default=1,
              metavar="N", type=whole_number(0, 999999999))
    line.once("--processes", f"processes that search at once ({processors()} here)",
              default=processors(), metavar="N", type=whole_number(1, MOST_PROCESSES))
    line.program()
    return line


def suspects(program, plant):
    """Returns the places of broken rules on which safety depends. A search starts there."""
    lines = program.ask(["check", "--columns", "strict"], CHECK_SECONDS).output.splitlines()
    return suspects_of(plant, [broken_rules.read_line(line) for line in lines
                               if line.startswith("refused C")])


def search(options, given):
    """Searches. Returns the exit status."""
    program = Program(str(options.program.absolute()), given)
    answer = program.ask(["check", "--columns", "free"], CHECK_SECONDS)
    if answer.status != 0:
        print("irv --search: the configuration is rejected: irv check --columns free answers: "
              f"{answer.said}", file=sys.stderr)
        return NO_ANSWER
    plant = Plant(schema_rules.read(given)[0])
    with Searchers(plant, suspects(program, plant), options.seed, options.processes) as searchers:
        searchers.start(options.seconds)
        while not searchers.is_over:
            searchers.wait(options.seconds)
    effort = (f"{searchers.runs} runs of up to {searchers.longest} events, {searchers.events} "
              f"events "
              f"in total, {searchers.seconds:.1f} s, {searchers.count} processes")
    if searchers.run is None:
        print(f"irv --search: no hazard found in {effort}", file=sys.stderr)
        return NONE_FOUND
    return report(program, plant, searchers, effort)


def report(program, plant, searchers, effort):
    """Prints the run and replay's answer. Returns the exit status."""
    run = searchers.run
    said = program.replay("free", run_text(plant, run)).said
    print(run_text(plant, run), end="")
    print(f"irv --search: a run of {len(run)} events, found with seed {searchers.found_by} in "
          f"{effort}; irv replay: {said}", file=sys.stderr)
    states = replayed(plant, run)
    agrees = states and said == replay_line(plant, hazard(plant, states[-1]))
    return FOUND if agrees else NO_ANSWER


def main(words):
    """Runs the search. Returns the exit status."""
    options = parser().parse_args(words)
    if not options.program.is_file():
        print(f"irv --search: the program {options.program} does not exist; build it with "
              "./irv --build", file=sys.stderr)
        return NO_ANSWER
    try:
        with interruptible():
            return search(options, standard_input("irv --search", NO_ANSWER))
    except Interrupted:
        print("irv --search: interrupted", file=sys.stderr)
        return NO_ANSWER
