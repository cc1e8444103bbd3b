"""The command line of `irv --release`."""

from __future__ import annotations

import os
import shutil
import sys
import tempfile
from argparse import Namespace
from pathlib import Path

from irvtools.arguments import Parser
from irvtools.paths import TOP
from irvtools.package.program_version import sum_of
from irvtools.release.contents import JUDGE, NotReleased, Release

NOT_MADE = 125


def parser() -> Parser:
    line = Parser(
        "irv --release", "Makes a release: a directory with the sources, the program, its manual "
        "page and licences, the judge of\npackages, and the validation record. It runs in the "
        "clean checkout in which CI ran.\n\nThe exit status is 0 if the release was made, "
        "otherwise 125: no directory is made then.", NOT_MADE,
        "irv --release DIRECTORY --gate LOG [OPTIONS]")
    line.add_argument("directory", metavar="DIRECTORY", type=Path,
                      help="a directory that is new or empty")
    line.once("--gate", "what `bash .ci/run` printed for this tree, whole", metavar="LOG",
              type=Path, required=True)
    line.add_argument("--extra-log", metavar="LOG", type=Path, action="append", default=[],
                      help="what a test outside CI printed, after a line `$ COMMAND`; may be "
                           "repeated")
    line.program()
    return line


def make(given: Namespace, top: Path) -> None:
    """Makes the release beside its place, and moves it there when complete."""
    directory = given.directory
    if directory.is_symlink() or directory.exists() and (not directory.is_dir()
                                                         or any(directory.iterdir())):
        raise NotReleased(f"{directory} is not an empty directory; nothing is overwritten")
    if not directory.absolute().parent.is_dir():
        raise NotReleased(f"the directory {directory.absolute().parent} does not exist")
    room = Path(tempfile.mkdtemp(prefix=".irv-release-", dir=directory.absolute().parent))
    try:
        room.chmod(0o755)
        Release(top, given, room).make()
        os.rename(room, directory)
    except OSError as fault:
        raise NotReleased(str(fault)) from fault
    finally:
        shutil.rmtree(room, ignore_errors=True)


def main(words: list[str]) -> int:
    """Makes a release; returns the exit status."""
    given = parser().parse_args(words)
    try:
        make(given, TOP)
    except NotReleased as fault:
        print(f"irv --release: {fault}", file=sys.stderr)
        return NOT_MADE
    print(f"{given.directory}: made")
    for name in (JUDGE, "SHA256SUMS"):
        print(f"sha256 of {name}: {sum_of(given.directory / name)}")
    return 0
