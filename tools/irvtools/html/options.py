"""The arguments of the HTML report, and the files that they name."""

from __future__ import annotations

import os
from pathlib import Path

from irvtools.arguments import Parser, whole_number
from irvtools.calls import refusal as calls_refusal
from irvtools.calls.program import Program
from irvtools.csvtables import labels

OF_VERIFY = ("columns", "depth", "conflicts", "cert")       # options that verify has too
MOST_SECONDS = 999999
STANDARD_INPUT, STANDARD_OUTPUT = "/proc/self/fd/0", "/proc/self/fd/1"
USAGE = 7               # the program's exit status for wrong arguments
SUBJECT = {"title": "the report's title (the configuration's file name)",
           "project": "the project, on the report", "issue": "the issue or revision, on the report",
           "author": "the author, on the report"}
MOST_CHARACTERS = 200   # in a text of the subject
WORDS_SECONDS = 20      # for its answer about them


class Refused(Exception):
    """Arguments that the report rejects, with the reason."""


def parser(status: int) -> Parser:
    line = Parser("irv --html", "Writes an HTML report of a configuration: the track plan, broken "
                  "rules, the verdict, runs step by step,\nwhat each route is good for, and what "
                  "an assessor quotes.\n\nThe exit status is 0 if the report was written, "
                  "otherwise 125.", status,
                  "irv --html OUT.html [OPTIONS] < CONFIGURATION")
    line.add_argument("out", metavar="OUT.html", help="the report's file")
    line.once("--run", "a run or scenario that is shown too", metavar="FILE")
    line.once("--labels", "show the labels in the CSV files of this directory beside the names",
              metavar="DIRECTORY")
    line.once("--verify-seconds", "how long verify may take (20)", default=20, metavar="N",
              type=whole_number(0, MOST_SECONDS))
    line.once("--search-seconds", "how long a run to a hazard is searched for if the table is not "
              "known to be safe; 0: no search (15)", default=15, metavar="N",
              type=whole_number(0, MOST_SECONDS))
    line.once("--import-notes", "the notes of the import that made the configuration: boards "
                                "placed by a rule "
              "are drawn hollow", metavar="FILE")
    line.flag("--without-times", "leave out how long things took")
    line.once("--columns", "option of verify: strict or free (strict)", metavar="KIND")
    line.once("--depth", "option of verify: the greatest k (4)", metavar="N")
    line.once("--conflicts", "option of verify: its budget (100000)", metavar="N")
    line.once("--cert", "where verify writes its certificate (OUT.cert)", metavar="FILE")
    line.flag("--no-cert", "leave no certificate")
    for name, words in SUBJECT.items():
        line.once(f"--{name}", words, metavar="TEXT")
    line.program()
    return line


class Options:
    """The caller's options."""

    def __init__(self, given, words):
        if not given.out:
            raise Refused("the report's name is empty")
        self.given_words = without(words, "--program")          # as given
        self.out = Path(given.out)
        self.of_verify = {name: getattr(given, name) for name in OF_VERIFY
                          if getattr(given, name) is not None}
        self.program_file = given.program.absolute()
        self.program = str(self.program_file)
        self.name = name_of_input()
        self.verify_seconds, self.search_seconds = given.verify_seconds, given.search_seconds
        self.run, self.has_times = given.run, not given.without_times
        self.labels = read_labels(given.labels)
        self.columns = given.columns or "strict"
        self.import_notes = given.import_notes
        self.is_cert_kept = not given.no_cert
        if given.no_cert and given.cert is not None:
            raise Refused("--cert and --no-cert exclude each other")
        self.cert = given.cert if given.cert is not None else str(self.out.with_suffix(".cert"))
        self.subject = {name: subject_text(name, getattr(given, name)) for name in SUBJECT
                        if getattr(given, name) is not None}

    @property
    def words(self):
        """Returns the options for verify, without columns and certificate."""
        return [word for name in ("depth", "conflicts") if name in self.of_verify
                for word in (f"--{name}", self.of_verify[name])]

    def files(self):
        """Returns the files to read or write, with their purposes; written ones come first."""
        certs = [(self.cert, "the certificate")] if self.is_cert_kept else []
        named = [(str(self.out), "the report"), *certs, (STANDARD_INPUT, "standard input"),
                 (STANDARD_OUTPUT, "standard output"), (self.program, "the program")]
        given = ((self.run, "the file of --run"), (self.import_notes, "the file of --import-notes"))
        return named + [(file, what) for file, what in given if file is not None]


def read_labels(directory: str | None) -> labels.Labels | None:
    """Returns the labels in a directory's CSV files, or `None` if none is named."""
    try:
        return None if directory is None else labels.read(directory)
    except calls_refusal.Refused as refused:
        raise Refused(f"--labels: {refused.faults[0]}") from None


def subject_text(name: str, said: str) -> str:
    """Returns a text of the report's subject. Rejects an empty, too long or unprintable one."""
    if not said.strip() or len(said) > MOST_CHARACTERS or not said.isprintable():
        raise Refused(f"--{name} needs 1 to {MOST_CHARACTERS} printable characters")
    return said


def name_of_input() -> str:
    """Returns the file name of standard input, or "standard input" if it is not a file."""
    try:
        name = Path(STANDARD_INPUT).resolve()
        return name.name if name.is_file() else "standard input"
    except OSError:
        return "standard input"


def is_same(one: str, other: str) -> bool:
    """Returns whether two names are of one file, which may not exist yet. Devices and pipes never
    are."""
    try:
        if not (os.path.exists(one) and os.path.exists(other)):
            return Path(one).resolve() == Path(other).resolve()
        return os.path.isfile(one) and os.path.samefile(one, other)
    except (OSError, RuntimeError, ValueError):
        return False


def guard_files(options: Options) -> None:
    """Rejects options by which one file would overwrite another, and a missing directory for the
    report."""
    if not options.out.parent.is_dir():
        raise Refused(f"the directory {options.out.parent} does not exist")
    files = options.files()
    for place, (file, what) in enumerate(files[:1 + options.is_cert_kept]):
        for other, is_what in files[place + 1:]:
            if is_same(file, other):
                raise Refused(f"{what} and {is_what} would be one file, {file}")


def guard_words(options: Options, program: Program) -> None:
    """Rejects options that verify rejects. It asks `program` with an empty input, so without a
    verdict."""
    for name, value in options.of_verify.items():
        words = ["verify", f"--{name}={value}"]
        words += [] if name == "cert" else ["--cert=" + options.cert]
        if program.ask(words, WORDS_SECONDS).status == USAGE:
            raise Refused(f"verify refuses --{name} {value}")


def without(words, name):
    """Returns the arguments without an option and its value."""
    kept, skip = [], False
    for word in words:
        if skip or word.startswith(f"{name}="):
            skip = False
        elif word == name:
            skip = True
        else:
            kept.append(word)
    return kept
