"""The command line of `irv --package`: makes an evidence package."""

from __future__ import annotations

import os
import signal
import sys
import tempfile

from irvtools.arguments import standard_input
from irvtools.calls.interruption import Interrupted, held, interruptible, released, removed
from irvtools.package.contents import Package
from irvtools.package.options import Options, Refused, parser

NOT_MADE = 125          # the program has no answer with this exit status


def make(options: Options, given: bytes) -> Package:
    """Makes the package beside its place, moves it there when complete, and returns it. Temporary
    files are always removed, also those of called tools."""
    options.guard_directory()
    place = {"prefix": ".irv-package-", "dir": options.directory.parent}
    try:
        with held() as signals, removed(tempfile.mkdtemp(**place)) as room:
            with removed(tempfile.mkdtemp(prefix="irv-package-")) as temporary, released():
                os.environ["TMPDIR"] = str(temporary)
                room.chmod(0o755)
                package = Package(options, given, room)
                package.make()
                options.guard_directory()
            if not signals.count:
                os.rename(room, options.directory)
                signals.is_done = True
    except OSError as fault:
        raise Refused(f"cannot make {options.directory}: {fault}") from fault
    return package


def main(words: list[str]) -> int:
    """Makes the requested package. Returns the exit status."""
    sys.stdout.reconfigure(errors="surrogateescape")        # file names may be any bytes
    given = parser(NOT_MADE).parse_args(words)
    try:
        with interruptible():
            options = Options(given)
            package = make(options, standard_input("irv --package", NOT_MADE))
    except Refused as fault:
        print(f"irv --package: {fault}", file=sys.stderr)
        return NOT_MADE
    except Interrupted as fault:
        name = signal.Signals(fault.number).name
        print(f"irv --package: ended by {name}; no package is made", file=sys.stderr)
        return NOT_MADE
    print(f"{options.directory}: {package.said}")
    print(f"sha256 of SHA256SUMS: {package.sum_of_sums}")
    return 0
