"""The command line of `tools/lrat`: writes a certificate's queries as CNF formulas and LRAT
refutations.

Each step's line starts with its clause's number, counted on from the formula's clauses. Nothing is
checked here. Some queries of a spent certificate end without the empty clause; the printed line
says so.
"""

import sys
from pathlib import Path


from irvtools.arguments import Parser
from irvtools.checkers import certificate
from irvtools.checkers import dimacs
from irvtools.checkers import exported
from irvtools.paths import TOP


def lines_of_steps(steps, clauses):
    """Yields the steps of a query as LRAT lines. `clauses` is how many its formula has."""
    for number, (clause, hints) in enumerate(steps, clauses + 1):
        yield " ".join(map(str, (number, *clause, 0, *hints, 0))) + "\n"


def write_query(directory, name, formula, steps):
    """Writes one query. Returns the line about it."""
    clauses = len(dimacs.read(formula)[1])
    (directory / f"{name}.cnf").write_bytes(formula)
    with open(directory / f"{name}.lrat", "w", encoding="ascii") as file:
        file.writelines(lines_of_steps(steps, clauses))
    end = "refuted" if certificate.is_refuted(steps) else "not refuted"
    return f"{name}: {clauses} clauses, {len(steps)} steps, {end}"


def parser():
    line = Parser("tools/lrat", "Writes each query of a certificate as DIRECTORY/KIND-NUMBER.cnf, the formula that "
                  "`irv export` prints, and\nDIRECTORY/KIND-NUMBER.lrat, its steps in the LRAT format, which other "
                  "checkers read. It prints a line a query.\n\nThe exit status is 0 if all is written, "
                  "otherwise 2.", 2, "tools/lrat [OPTIONS] CONFIGURATION CERTIFICATE DIRECTORY")
    line.once("--columns", "strict or free, as verify was called (strict)", choices=("strict", "free"),
              default="strict", metavar="KIND")
    line.once("--program", "the program that exports the formulas (./irv)", type=Path, default=TOP / "irv",
              metavar="FILE")
    line.add_argument("conf", metavar="CONFIGURATION", type=Path, help="the configuration's file")
    line.add_argument("cert", metavar="CERTIFICATE", type=Path, help="the certificate's file")
    line.add_argument("directory", metavar="DIRECTORY", type=Path, help="where the files are written")
    return line


def main(words):
    """Writes the queries of the certificate in the arguments. Returns the exit status."""
    given = parser().parse_args(words)
    try:
        conf = given.conf.read_bytes()
        _, _, queries = certificate.read(given.cert.read_bytes())
        given.directory.mkdir(parents=True, exist_ok=True)
        for kind, number, steps in queries:
            formula = exported.text_of(given.program.resolve(), conf, given.columns, kind, number)
            print(write_query(given.directory, f"{kind}-{number}", formula, steps))
    except (OSError, certificate.CertificateError, dimacs.DimacsError, exported.ExportError) as fault:
        print(f"tools/lrat: {fault}", file=sys.stderr)
        return 2
    return 0
