"""The arguments for an evidence package, and the files that they name."""

from __future__ import annotations

from argparse import Namespace
from pathlib import Path

from irvtools.arguments import Parser, whole_number
from irvtools.batch.file_names import shown
from irvtools.html.options import Refused as ReportRefused
from irvtools.html.options import name_of_input, subject_text
from irvtools.html.run_file import Given

DEPTHS, CONFLICTS = (1, 16), (0, 200000)
MOST_SECONDS = 86400
# The caller's optional texts, with their meaning.
ABOUT = {"title": "the title", "project": "the project", "issue": "the issue of this package",
         "author": "who makes it"}


class Refused(Exception):
    """A package that cannot be made, with the reason."""


def parser(status: int) -> Parser:
    line = Parser(
        "irv --package", "Makes an evidence package: a directory with the configuration, every "
        "answer to it, the HTML report, a page\nthat leads through them, a script that makes them "
        "again, the documents and the sources.\n\nThe exit status is 0 if the package was made, "
        "whatever it says of the table, otherwise 125: nothing is made\nthen.", status,
        "irv --package DIRECTORY [OPTIONS] < CONFIGURATION")
    line.add_argument("directory", metavar="DIRECTORY", help="a directory that is new or empty")
    line.add_argument("--run", action="append", default=[], metavar="FILE",
                      help="a run or scenario that is answered too; may be repeated")
    line.once("--depth", "option of verify: the greatest k (4)", metavar="N",
              type=whole_number(*DEPTHS))
    line.once("--conflicts", "option of verify: its budget (100000)", metavar="N",
              type=whole_number(*CONFLICTS))
    seconds = whole_number(0, MOST_SECONDS)
    line.once("--search-seconds", "how long a run to a hazard is searched for if verify says "
              "neither that there is one nor that there is none; 0: no search (15)", default=15,
              metavar="N", type=seconds)
    line.once("--solver-seconds", "how long each other solver may take for a query; 0: none is "
              "called (600)", default=600, metavar="N", type=seconds)
    for name, what in ABOUT.items():
        line.once(f"--{name}", f"{what}, for the first lines of the page and the report",
                  metavar="TEXT")
    line.program()
    return line


class Options:
    """The caller's options."""

    def __init__(self, given: Namespace):
        if not given.directory:
            raise Refused("the directory's name is empty")
        self.directory = Path(given.directory)
        self.program = given.program.absolute()
        if not self.program.is_file():
            raise Refused(f"the program {self.program} does not exist; build it with ./irv --build")
        self.search_seconds, self.solver_seconds = given.search_seconds, given.solver_seconds
        self.of_verify = [word for name in ("depth", "conflicts")
                          if (value := getattr(given, name)) is not None
                          for word in (f"--{name}", str(value))]
        self.name = shown(Path(name_of_input()).name)
        self.guard_directory()
        try:
            self.about = {name: subject_text(name, getattr(given, name)) for name in ABOUT
                          if getattr(given, name) is not None}
            self.runs = [Given(name) for name in given.run]
        except ReportRefused as fault:
            raise Refused(str(fault)) from fault

    @property
    def of_report(self) -> list[str]:
        """Returns the options that the report gets too."""
        return [word for name, value in self.about.items() for word in (f"--{name}", value)]

    def guard_directory(self) -> None:
        """Rejects a directory that is not empty or cannot be made."""
        if self.directory.is_symlink() or self.directory.exists() and not self.directory.is_dir():
            raise Refused(f"{self.directory} is not a directory; nothing is overwritten")
        if self.directory.exists() and any(self.directory.iterdir()):
            raise Refused(f"{self.directory} is not empty; nothing is overwritten")
        if not self.directory.absolute().parent.is_dir():
            raise Refused(f"the directory {self.directory.absolute().parent} does not exist")
