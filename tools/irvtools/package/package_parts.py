"""The parts of an evidence package: its files, and the form of its calls and version file."""

import re

ARCHIVE = "sources.tar.bz2"
SUMS, RECORD, VERSION, PROGRAM = "SHA256SUMS", "calls.json", "version.txt", "program/irv"
CONFIGURATION = "configuration.json"
REQUIRED = (CONFIGURATION, "index.html", "report.html", "repeat.sh", RECORD, VERSION, PROGRAM,
            ARCHIVE, "checkers/audit", "checkers/lrat", "documents/README.md", "documents/VERSION")
OPTIONAL = ("program/irv.licences", "verify.cert", "verify.run", "search.run", "SHA256SUMS")
DIRECTORIES = ("documents/", "checkers/", "lrat/", "solvers/", "runs/")
CHECKERS = ("checkers/audit", "checkers/lrat")
# Additional calls for a safe table.
CALLS_IF_SAFE = ("audit", "audit-outside", "lrat")


def unknown_names(names, record):
    """Returns the file names that don't belong to a package with this record of calls, and the
    names of missing parts."""
    answers = [name.decode() for name in re.findall(rb'"name": "([\w.-]+)"', record)]
    known = {f"answers/{answer}.{end}" for answer in answers for end in ("txt", "err")}
    unknown = set(names) - known - set(REQUIRED) - set(OPTIONAL)
    wanted = {*REQUIRED, *(f"answers/{answer}.txt" for answer in answers)}
    unknown = {name for name in unknown if not name.startswith(DIRECTORIES)}
    return sorted(unknown), sorted(wanted - set(names))


def is_call(call):
    """Returns whether a recorded call is of the program or a checker in the package, with files in
    the package."""
    words, named = call["words"], [*call["made"], f"{call['name']}.txt"]
    is_known = words[0] == PROGRAM or words[0] == "python3" and words[1] in CHECKERS
    is_inside = not any(name.startswith("/") or ".." in name.split("/") for name in named)
    return (is_known or not call["is_repeated"]) and is_inside


def lines_of(version):
    """Returns the version file's lines by first word."""
    lines = version.decode(errors="replace").splitlines()
    return dict(line.split(" ", 1) for line in lines if " " in line)


def contents(place):
    """Returns the files of a directory, or a single file, by the rest of the name."""
    if place.is_dir():
        return {f"/{path.relative_to(place).as_posix()}": path.read_bytes()
                for path in place.rglob("*") if path.is_file()}
    return {"": place.read_bytes()} if place.is_file() else {}
