"""Writes the list of definitions and the assessors' reading plan.

`docs/assurance/definition-list.md` is generated as a whole. `docs/assurance/definitions.md` has a
generated part between two marks: each answer's needs, and a strict table's files in reading order.
"""

from __future__ import annotations

import sys
from pathlib import Path

from irvtools.arguments import Parser
from irvtools.docs import definitions
from irvtools.docs.definitions import RULES, lines_of, needed
from irvtools.docs.reading_order import ABOUT, ANSWERS, NAMED_STAGES, STEPS

LIST = Path("docs/assurance/definition-list.md")
PLAN = Path("docs/assurance/definitions.md")
MARKS = ("<!-- reading plan: begins -->", "<!-- reading plan: ends -->")
LINES_AN_HOUR = 100


def by_place(found: dict) -> dict:
    """Returns the definitions of `needed` by file below crates/."""
    places = {}
    for (path, name), lines in found.items():
        places.setdefault(path.relative_to(definitions.CRATES), []).append((name, lines))
    return places


def short_name(place: Path) -> str:
    """Returns a file's name, without ending if it holds definitions."""
    return place.stem if place.suffix == ".antt" else place.name


def names_by_crate(places: list[Path]) -> str:
    """Returns these files' names, each crate's first one after a link to the crate."""
    crates: dict[str, list[str]] = {}
    for place in places:
        crates.setdefault(place.parts[0], []).append(short_name(place))
    return "; ".join(
        f"[{crate}](../../crates/{crate}): {', '.join(names)}" for crate, names in crates.items()
    )


def hours_of(lines: int) -> str:
    """Returns the hours for reading N lines, in halves."""
    halves = max(1, round(2 * lines / LINES_AN_HOUR))
    return f"{halves / 2:g}"


def table_of_answers() -> list[str]:
    """Returns the table of answers: parts, lines and hours."""
    rows = ["| answer | parts | lines | hours |", "|---|---|---|---|"]
    for answer, parts, roots, without in ANSWERS:
        lines = sum(needed(roots, without).values())
        rows.append(f"| {answer} | {parts} | {lines} | {hours_of(lines)} |")
    return rows


def table_of_steps() -> list[str]:
    """Returns a strict table's files by steps; ends the program if a file has no step."""
    places = by_place(needed(definitions.CLEAN, RULES))
    endings = {place.with_suffix("").as_posix(): place for place in places}
    rows = ["| step | files, in order | lines | hours |", "|---|---|---|---|"]
    for step, listed in STEPS:
        files = [endings.pop(name) for name in listed.split() if name in endings]
        lines = sum(lines_of(places[place]) for place in files)
        rows.append(f"| {step} | {names_by_crate(files)} | {lines} | {hours_of(lines)} |")
    if endings:
        sys.exit(f"tools/definitions: no step of the reading plan has {', '.join(sorted(endings))}")
    return rows


def reading_plan() -> str:
    """Returns the generated part of the assessors' page."""
    whole, needless = (
        sum(needed(definitions.CLEAN, RULES | without).values())
        for without in (frozenset(), frozenset({"families"}))
    )
    return "\n".join(
        [
            f"For a strict table, read {whole} lines. You need not believe {whole - needless} of "
            "them: the nine families of the invariant, and definitions that only the families use. "
            "Files without an ending are in `specs/`, and the other files are in `src/`.",
            "",
            *table_of_steps(),
            "",
            "Each answer needs part 1 of [the list](definition-list.md). The next table says which "
            "other parts each answer needs. In part 5, read only how bytes become the plant.",
            "",
            *table_of_answers(),
        ]
    )


def table_of_files(by_file: dict) -> list[str]:
    """Returns a table of crates with their files and definitions."""
    crates = {}
    for place, items in by_file.items():
        crates.setdefault(place.parts[0], []).append((place, items))
    rows = ["| crate | definitions, by file | lines |", "|---|---|---|"]
    for crate, files in crates.items():
        named = [
            f"*{short_name(place)}* {' '.join(f'`{name}`' for name, _ in items)}"
            for place, items in files
        ]
        lines = sum(lines_of(items) for _, items in files)
        rows.append(f"| {crate} | {'; '.join(named)} | {lines} |")
    return rows


def table_of_crates(found: list) -> list[str]:
    """Returns a table of crates and files, for parts with unnamed definitions."""
    rows = ["| part | crate | files | lines |", "|---|---|---|---|"]
    for number, (_, by_file) in enumerate(found, 1):
        crates = {}
        for place, items in by_file.items() if number not in NAMED_STAGES else ():
            crates.setdefault(place.parts[0], []).append((place, lines_of(items)))
        for crate, files in crates.items():
            names = ", ".join(short_name(place) for place, _ in files)
            rows.append(f"| {number} | {crate} | {names} | {sum(lines for _, lines in files)} |")
    return rows


def list_page() -> str:
    """Returns the list of definitions."""
    found = list(definitions.stages())
    counts = [sum(map(lines_of, by_file.values())) for _, by_file in found]
    page = [
        "# List of definitions (generated by tools/definitions: do not edit)",
        "",
        "This page lists, for assessors and in reading order, the definitions that the contract of "
        "`run` depends on.",
        "[Definitions](definitions.md) says which of them an answer needs.",
        "Each definition is in the first part that needs it. Names in italics are files; those "
        "without an ending are in `specs/`. Each crate is a directory of `crates/`.",
        "",
        "The lines of definitions, types, traits, constants and of the clauses of `run` count. "
        "Comments, imports, empty lines, libraries and ported crates do not. Parts 2 to 4 name "
        "each definition, the other parts only files; `tools/definitions` prints all names.",
        "",
    ]
    page += [
        f"{number}. {title}: {count} lines. {about}"
        for number, ((title, _), count, about) in enumerate(zip(found, counts, ABOUT), 1)
    ]
    page += ["", f"In all {sum(counts)} lines."]
    for number in NAMED_STAGES:
        title, by_file = found[number - 1]
        page += ["", f"## {number}. {title}", "", *table_of_files(by_file)]
    return "\n".join([*page, "", "## Other parts", "", *table_of_crates(found)]) + "\n"


def plan_page(text: str) -> str:
    """Returns the assessors' page with the current reading plan."""
    first, last = MARKS
    if text.count(first) != 1 or text.count(last) != 1:
        sys.exit(f"tools/definitions: {PLAN.name} has no single part between {first} and {last}")
    before, _, rest = text.partition(first)
    return f"{before}{first}\n{reading_plan()}\n{last}{rest.partition(last)[2]}"


def pages() -> dict[Path, str]:
    """Returns the generated pages as they should be."""
    root = definitions.CRATES.parent
    plan = plan_page((root / PLAN).read_text(encoding="utf-8"))
    return {root / LIST: list_page(), root / PLAN: plan}


def differences() -> list[str]:
    """Returns the wrong or missing lines of both pages."""
    found = []
    for path, text in pages().items():
        now = path.read_text(encoding="utf-8").splitlines() if path.exists() else []
        wanted = text.splitlines()
        found += [
            f"{path.name}: this line is missing: {line}" for line in wanted if line not in now
        ]
        found += [f"{path.name}: this line is wrong: {line}" for line in now if line not in wanted]
        if not found and now != wanted:
            found.append(f"{path.name}: its lines are in another order")
    return found


def print_stages(with_files: bool) -> None:
    """Prints the stages with their lines, and definitions if `with_files`."""
    total = 0
    for number, (title, by_file) in enumerate(definitions.stages(), 1):
        count = sum(map(lines_of, by_file.values()))
        total += count
        if with_files:
            print(f"\n## {number}. {title}: {count} lines\n", *table_of_files(by_file), sep="\n")
        else:
            print(f"{count:5} {title}")
    print(f"\nIn all {total} lines." if with_files else f"{total:5} in all")


def parser() -> Parser:
    line = Parser(
        "tools/definitions",
        "Lists the definitions that the contract of `run` depends on: for each stage "
        "of reading a table of files,\ndefinitions and lines.",
        2,
        "tools/definitions [OPTION]",
    )
    kind = line.add_mutually_exclusive_group()
    for name, text in (
        ("--total", "print the stages only, with their lines"),
        ("--print", "print docs/assurance/definition-list.md as it should be"),
        (
            "--check",
            "print each line of the two pages that is missing or wrong; status 1 if any is",
        ),
        ("--write", "write docs/assurance/definition-list.md and the reading plan"),
        ("--left", "print definitions that no stage but the last one has; there should be none"),
    ):
        kind.add_argument(name, action="store_const", const=name, dest="kind", help=text)
    return line


def main(words: list[str]) -> int:
    """Prints the definitions or writes the pages; returns the exit status."""
    kind = parser().parse_args(words).kind
    if kind == "--left":
        print(*definitions.left_over(list(definitions.stages())[-1][1]), sep="\n", end="")
    elif kind == "--print":
        print(list_page(), end="")
    elif kind == "--check":
        found = differences()
        sys.stdout.writelines(f"{fault}\n" for fault in found)
        return 1 if found else 0
    elif kind == "--write":
        for path, text in pages().items():
            path.write_text(text, encoding="utf-8")
    else:
        print_stages(kind is None)
    return 0
