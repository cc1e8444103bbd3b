"""The command line of `irv --csv`: reads, writes and compares interlocking tables as CSV."""

from __future__ import annotations

import argparse
import sys
from pathlib import Path

from irvtools.arguments import Parser, standard_input
from irvtools.calls.refusal import Refused, reason
from irvtools.csvtables import (
    comparing, comparison_page, configurations, control_table, fill_command, network, reading, renaming,
    writing)
from irvtools.rules.schema_rules import MOST_BYTES

DONE, DIFFER, REFUSED = 0, 1, 125
OF_COMPARE = ("compare", "with_network", "html")
OF_CHANGES = ("in_", "out", "named", "changes", "fill", "control_table")
OF_FILL = ("write", "exact")


class _Change(argparse.Action):
    """Records a change in its place in the order."""

    def __call__(self, parser, namespace, values, option_string=None):
        namespace.changes = [*(namespace.changes or []), (option_string, values)]


def parser():
    line = Parser("irv --csv", "Writes a configuration as two CSV files that a spreadsheet opens, reads them "
                  "back, renames or drops entries,\nfills derived columns, writes the control table, "
                  "and prints in which entries two tables differ.\nWithout --in or FILE the "
                  "configuration is read from standard input; without --out it is printed.\n\nThe exit status is 0; 1 if two tables differ; 125 if something was "
                  "refused: nothing is written then.", REFUSED,
                  "irv --csv --out DIRECTORY < CONFIGURATION\n       irv --csv --in DIRECTORY > CONFIGURATION\n"
                  "       irv --csv [CHANGES] < CONFIGURATION > CONFIGURATION\n"
                  "       irv --csv --fill conflicts,points [--exact] [FILE] [--out DIRECTORY | --write]\n"
                  "       irv --csv --control-table OUT [FILE]\n"
                  "       irv --csv --compare OLD NEW [--html OUT.html]\n"
                  "       irv --csv --compare --with-network NEW [--html OUT.html]")
    line.add_argument("names", nargs="*", metavar="FILE",
                      help="with --compare, --fill or --control-table: a configuration, or a directory with both "
                           "CSV files")
    line.once("--in", "read sections.csv and routes.csv of this directory", metavar="DIRECTORY", dest="in_")
    line.once("--out", "write sections.csv and routes.csv into this directory", metavar="DIRECTORY")
    line.flag("--named", "rename each route SOURCE-DESTINATION, before all other changes")
    for name, metavar, text in (("--rename", "OLD=NEW", "rename a route, board or section, in all lists"),
                                ("--drop", "NAME", "drop a route, in all lists"),
                                ("--list", "FILE", "a file of lines `rename OLD=NEW` or `drop NAME`")):
        line.add_argument(name, action=_Change, dest="changes", metavar=metavar, help=text)
    line.once("--fill", "fill conflicts, points or both (conflicts,points) as the rules demand",
              metavar="COLUMNS", type=fill_command.read_columns)
    line.flag("--exact", "with --fill: also list conflicts that no rule demands")
    line.flag("--write", "with --fill: write the result over what was read")
    line.once("--control-table", "write the control table as OUT.csv and OUT.html", metavar="OUT")
    line.flag("--compare", "print in which entries two tables differ")
    line.flag("--with-network", "compare with the table that `irv table` makes of the network")
    line.once("--html", "with --compare: also write the differences as a page", metavar="OUT.html")
    line.program()
    return line


def options_of(words):
    """Returns the options in the arguments."""
    line = parser()
    given = line.parse_args(words)
    mixed = [name for name in (OF_CHANGES if given.compare else OF_COMPARE) if getattr(given, name)]
    if mixed:
        line.error(f"{option_of(mixed[0])} does not go {'with' if given.compare else 'without'} --compare"
                   if mixed[0] != "changes" else "changes do not go with --compare")
    if given.compare:
        if len(given.names) != (1 if given.with_network else 2):
            line.error("--compare takes two files or directories, with --with-network one")
    else:
        see_input(line, given)
        if not any(getattr(given, name) for name in OF_CHANGES):
            line.error("give --in, --out, --fill, --control-table, --compare or a change")
    wrong = [name for name in OF_FILL if getattr(given, name) and not given.fill]
    if wrong:
        line.error(f"{option_of(wrong[0])} does not go without --fill")
    see_output(line, given)
    return given


def option_of(name):
    """Returns an option by the name of its value."""
    return f"--{name.rstrip('_').replace('_', '-')}"


def see_input(line, given):
    """Rejects more than one input, and a FILE that nothing reads."""
    takes_file = given.fill or given.control_table
    if given.names[takes_file and 1 or 0:]:
        line.error(f"unexpected argument {given.names[takes_file and 1 or 0]}")
    if given.names and given.in_ is not None:
        line.error("--in and FILE do not go together")


def see_output(line, given):
    """Rejects outputs that do not go together."""
    if given.write and given.out is not None:
        line.error("--write and --out do not go together")
    if given.write and not given.names and given.in_ is None:
        line.error("--write needs FILE or --in: standard input cannot be written over")
    if given.control_table and (given.fill or given.out is not None):
        line.error(f"--control-table does not go with {'--fill' if given.fill else '--out'}")


def given_configuration():
    """Returns the configuration on standard input."""
    return configurations.read(standard_input("irv --csv", REFUSED, MOST_BYTES + 1), "standard input")


def compared(name):
    """Returns the configuration of a directory with both CSV files, or a file."""
    if Path(name).is_dir():
        value = reading.read_directory(name)
    else:
        value = configurations.read(configurations.read_bytes(name), name)
    configurations.see_counts(value, name)
    return value


def source_of(options):
    """Returns the directory or file to read, or `None` for standard input."""
    return options.in_ if options.in_ is not None else (options.names[0] if options.names else None)


def read_source(options):
    """Returns the configuration that was read."""
    source = source_of(options)
    if source is None:
        return given_configuration()
    return reading.read_directory(source) if options.in_ is not None or Path(source).is_dir() \
        else configurations.read(configurations.read_bytes(source), source)


def changed(options):
    """Returns the requested configuration with its changes."""
    value = read_source(options)
    changes = renaming.Changes()
    for option, word in options.changes or []:
        if option == "--rename":
            changes.rename(word, "--rename")
        elif option == "--drop":
            changes.drop(word, "--drop")
        else:
            changes.read_list(word)
    return changes.applied(renaming.named(value) if options.named else value)


def convert(options):
    """Reads, changes and writes a configuration."""
    value = changed(options)
    if options.fill:
        print_out(fill_command.fill(options, value, source_of(options)))
    elif options.control_table:
        control_table.write(value, options.control_table)
    elif options.out is not None:
        writing.write_directory(value, options.out)
    else:
        print_out(configurations.written(value))
    return DONE


def compare(options):
    """Prints in which entries two configurations differ."""
    new = compared(options.names[-1])
    is_of_network = options.with_network
    old = network.own_table(str(options.program), new) if is_of_network else compared(options.names[0])
    comparison = comparing.Comparison(old, new, is_of_network)
    if options.html is not None:
        titles = "the network's own table" if is_of_network else options.names[0], options.names[-1]
        writing.write_new(options.html, comparison_page.Picture(comparison, *titles).page())
    print_out("".join(line + "\n" for line in comparison.lines()))
    return DIFFER if comparison.differences else DONE


def print_out(text):
    """Prints a text completely."""
    try:
        sys.stdout.write(text)
        sys.stdout.flush()
    except OSError as fault:
        # The rest of the stream can't be written at exit either.
        sys.stdout = None
        raise Refused(f"standard output: it can't be written: {reason(fault)}") from None


def main(words: list[str]) -> int:
    """Runs the command. Returns the exit status."""
    options = options_of(words)
    try:
        return compare(options) if options.compare else convert(options)
    except fill_command.NotFilled as refused:
        print(f"irv --csv: {refused}", *refused.lines, sep="\n", file=sys.stderr)
    except Refused as refused:
        for line in refused.lines():
            print(f"irv --csv: {line}", file=sys.stderr)
    return REFUSED
