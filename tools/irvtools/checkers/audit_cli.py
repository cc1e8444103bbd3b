"""The command line of `tools/audit`: checks a certificate independently of the program.

The checker (`certificate.py`) reads the certificate by its grammar and follows each step by its
hints. It shares only the formulas with the program; `irv export` prints them. It does not check
that they are the plant's: the program's contract says so, and is proved.
"""

import sys
from pathlib import Path


from irvtools.arguments import Parser
from irvtools.checkers import certificate
from irvtools.checkers import dimacs
from irvtools.checkers import exported
from irvtools.paths import TOP


ACCEPTED, REFUSED, NO_ANSWER, SPENT = 0, 1, 2, 4


def parser():
    line = Parser("tools/audit", "Checks a certificate that `irv verify` wrote, by a checker that is independent "
                  "of the program.\n\nThe exit status is 0 if it was accepted and says that the plant is safe; "
                  "4 if it was accepted and is spent, which says\nnothing about the plant; 1 if it was refused; "
                  "2 if a file or a formula could not be had.", NO_ANSWER,
                  "tools/audit [OPTIONS] CONFIGURATION CERTIFICATE")
    line.once("--columns", "strict or free, as verify was called (strict)", choices=("strict", "free"),
              default="strict", metavar="KIND")
    line.once("--program", "the program that exports the formulas (./irv)", type=Path, default=TOP / "irv",
              metavar="FILE")
    line.add_argument("conf", metavar="CONFIGURATION", type=Path, help="the configuration's file")
    line.add_argument("cert", metavar="CERTIFICATE", type=Path, help="the certificate's file")
    return line


def main(words):
    """Checks the certificate in the arguments. Returns the exit status."""
    given = parser().parse_args(words)
    try:
        formula_of = exported.formulas_of(given.program.resolve(), given.conf.read_bytes(),
                                          given.columns)
        told = certificate.check(given.cert.read_bytes(), formula_of)
    except certificate.CertificateError as fault:
        print(f"refused: {fault}")
        return REFUSED
    except (OSError, dimacs.DimacsError, exported.ExportError) as fault:
        print(f"tools/audit: {fault}", file=sys.stderr)
        return NO_ANSWER
    is_safe = told.startswith("safe ")
    print(f"accepted: {told}{'' if is_safe else ', which says nothing about the plant'}; each step "
          "follows, over the formulas that irv export prints")
    return ACCEPTED if is_safe else SPENT
