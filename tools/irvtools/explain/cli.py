"""The command line of `irv COMMAND --explain` and `--advise`: calls the program, passes its output
and exit status through, and prints sentences on standard error."""

from __future__ import annotations

import subprocess
import sys
from pathlib import Path

from irvtools.arguments import Parser
from irvtools.calls.proved_program import is_proved
from irvtools.calls.refusal import Refused, reason
from irvtools.calls.verdict import Answered, verdict
from irvtools.explain.sentences import command_of, plant_of_answer, sentences
from irvtools.explain.sources import CsvSource, JsonSource
from irvtools.rules.table_advice import by_route

NO_ANSWER = 125
FLAGS = ("--explain", "--advise", "--help", "-h")
WITH_VALUE = ("--in", "--program")
WITHOUT_INPUT = ("make", "demo", None)      # commands that read no configuration
SIGNALLED = 128
JUDGED = ("check", "verify")                # commands with a verdict
MOST_ANSWER = 5                             # the greatest exit status of their answers


def parser() -> Parser:
    """Returns the parser of the tool's options."""
    line = Parser("irv --explain", "Calls a command of irv, and says on standard error what is wrong if the "
                  "answer is a refusal, a rejection or `not a run`.\nStandard output and the exit status are "
                  "the program's own.\n\nThe exit status is 125 if the program cannot be called.", NO_ANSWER,
                  "irv COMMAND --explain [--advise] [--in DIRECTORY] [ARGUMENTS] < CONFIGURATION")
    line.flag("--explain", "print sentences; this is the default")
    line.flag("--advise", "also print advice: mistakes that no rule checks, and notes")
    line.once("--in", "read sections.csv and routes.csv of this directory instead of standard input",
              metavar="DIRECTORY", dest="in_")
    line.program()
    return line


def divided(words: list[str]) -> tuple[list[str], list[str]]:
    """Returns these arguments, divided into the tool's options and the program's arguments."""
    own, rest, left = [], [], list(words)
    while left:
        word = left.pop(0)
        if word == "--":
            return own, [*rest, word, *left]
        if word in FLAGS or word.partition("=")[0] in WITH_VALUE:
            own.append(word)
            if word in WITH_VALUE and left:
                own.append(left.pop(0))
        else:
            rest.append(word)
    return own, rest


def read_source(directory: str | None) -> JsonSource | CsvSource:
    """Returns the configuration in question."""
    if directory is not None:
        return CsvSource(directory)
    if sys.stdin is None:
        raise Refused("standard input cannot be read: it is closed")
    try:
        return JsonSource(sys.stdin.buffer.read())
    except OSError as fault:
        raise Refused(f"standard input cannot be read: {reason(fault)}") from None


def called(program, words: list[str], given: bytes | None) -> tuple[int, bytes]:
    """Calls the program; returns exit status and output."""
    try:
        done = subprocess.run([program, *words], input=given, stdout=subprocess.PIPE, check=False)
    except OSError as fault:
        raise Refused(f"{program}: it cannot be called: {reason(fault)}") from None
    return done.returncode if done.returncode >= 0 else SIGNALLED - done.returncode, done.stdout


def pass_on(output: bytes) -> None:
    """Writes the program's output."""
    try:
        sys.stdout.buffer.write(output)
        sys.stdout.buffer.flush()
    except OSError as fault:
        sys.stdout = None       # the unwritten rest must not be flushed at exit
        raise Refused(f"standard output: it cannot be written: {reason(fault)}") from None


def tell(lines: list[str]) -> None:
    """Prints lines on standard error."""
    for line in lines:
        print(f"irv: {line}", file=sys.stderr)


def main(words: list[str]) -> int:
    """Runs the tool; returns the exit status."""
    own, rest = divided(words)
    line = parser()
    options = line.parse_args(own)
    if not rest:
        line.error("give a command of irv, as check")
    try:
        if command_of(rest) in WITHOUT_INPUT:
            status, output = called(options.program, rest, None)
            pass_on(output)
            return status
        source = read_source(options.in_)
        status, output = called(options.program, rest, source.given)
        pass_on(output)
    except Refused as refused:
        tell(refused.lines())
        return NO_ANSWER
    text = output.decode(errors="replace")
    tell(sentences(options.program, rest, source, text))
    if options.explain or not options.advise:
        tell(verdict_lines(options.program, rest, status, text))
    if options.advise:
        tell(advice_lines(source, text))
    return status


def columns_of(words: list[str]) -> str:
    """Returns the value of --columns in these arguments; strict by default."""
    for word, value in zip(words, [*words[1:], ""]):
        if word == "--columns" or word.startswith("--columns="):
            return word.partition("=")[2] or value
    return "strict"


def verdict_lines(program: Path, words: list[str], status: int, output: str) -> list[str]:
    """Returns the verdict on an answer of check or verify; nothing otherwise."""
    command = command_of(words)
    if command not in JUDGED or status > MOST_ANSWER:
        return []
    found = verdict([Answered(command, columns_of(words), status, output)], is_proved(Path(program)))
    return [f"verdict: {found.line}"]


def advice_lines(source: JsonSource | CsvSource, output: str) -> list[str]:
    """Returns a configuration's advice, by route."""
    plant = plant_of_answer(source, output)
    if plant is None:
        return ["no advice: it needs a configuration in which the rules F, N and R hold"]
    groups = by_route(plant)
    if not groups:
        return ["advice: no mistakes and no notes"]
    return [f"{one.kind}: {one.words()}" for _, group in groups for one in group]
