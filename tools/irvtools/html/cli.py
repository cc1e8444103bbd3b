"""The command line of `irv --html`: writes the HTML report of a configuration."""

import sys
from pathlib import Path

from irvtools.arguments import standard_input
from irvtools.calls.interruption import Interrupted, interruptible
from irvtools.calls.program import Program
from irvtools.calls.progress import Progress
from irvtools.html.import_notes import boards_by_rule
from irvtools.html.options import Options, Refused, guard_files, guard_words, parser
from irvtools.html.report import Report
from irvtools.html.run_file import Given

NOT_WRITTEN = 125       # the program has no answer with this exit status
NAME = "irv --html"


def read_options(words):
    """Returns the options in the arguments, and the run or scenario that they name, or `None`."""
    options = Options(parser(NOT_WRITTEN).parse_args(words), words)
    guard_files(options)
    if not options.program_file.is_file():
        raise Refused(f"the program {options.program} does not exist; build it with "
                      "./irv --build")
    guard_words(options, Program(options.program, b""))
    return options, None if options.run is None else Given(options.run)


def written(options, given):
    """Writes the report and returns it."""
    by_rule = boards_by_rule(options.import_notes) if options.import_notes is not None else set()
    report = Report(options, standard_input(NAME, NOT_WRITTEN), given, options.has_times)
    report.by_rule = by_rule
    report.progress = Progress(NAME)
    options.out.write_text(report.make(), encoding="utf-8", errors="replace")
    report.progress.say(f"{options.out} is written")
    return report


def print_result(options, report):
    """Prints the verdict, then the answers, and the certificate with its size."""
    print(f"{options.out}: {report.verdict.line}")
    for line in report.said:
        print(f"  {line}")
    if report.has_cert:
        size = Path(options.cert).stat().st_size
        print(f"{options.cert}: certificate, {size} bytes; --no-cert leaves none")


def main(words):
    """Writes the requested report. Returns the exit status."""
    sys.stdout.reconfigure(errors="surrogateescape")        # file names may be any bytes
    try:
        with interruptible():
            options, given = read_options(words)
            print_result(options, written(options, given))
    except (Refused, OSError) as fault:
        print(f"{NAME}: {fault}", file=sys.stderr)
        return NOT_WRITTEN
    except Interrupted as fault:
        print(f"{NAME}: interrupted; no report was written", file=sys.stderr)
        return fault.status
    return 0
