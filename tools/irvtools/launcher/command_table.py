"""Reads tools/launcher/commands.txt, the one table of commands, options and exit statuses.

`table()` makes the option table of docs/reference/commands.md from it; `page_faults()` lists that
page's differences.
"""

import re
from pathlib import Path
from typing import Dict, List, NamedTuple, Optional

TABLE = Path(__file__).resolve().parents[2] / "launcher/commands.txt"
SEPARATOR = " | "


class Entry(NamedTuple):
    """An entry: kind, name, and fields with one or more values."""

    kind: str
    name: str
    fields: Dict[str, List[str]]

    def value(self, key: str) -> Optional[str]:
        """Returns a field's first value, or `None` without such a field."""
        return self.fields.get(key, [None])[0]

    def parts(self, key: str) -> List[List[str]]:
        """Returns a field's values, each as its parts."""
        return [value.split(SEPARATOR) for value in self.fields.get(key, [])]


def read(file: Path = TABLE) -> List[Entry]:
    """Returns the table's entries, in order."""
    entries: List[Entry] = []
    for line in file.read_text(encoding="utf-8").splitlines():
        if not line.strip() or line.startswith("#"):
            continue
        if line.startswith(" "):
            key, _, value = line.strip().partition(":")
            entries[-1].fields.setdefault(key, []).append(value.strip())
        else:
            kind, _, name = line.partition(" ")
            entries.append(Entry(kind, name, {}))
    return entries


def of_kind(kind: str) -> List[Entry]:
    """Returns the entries of this kind."""
    return [entry for entry in read() if entry.kind == kind]


def options_of(command: str) -> List[Entry]:
    """Returns the options of a program's command."""
    return [option for option in of_kind("option")
            if command in option.value("commands").split()]


def usage(command: Entry) -> str:
    """Returns the usage line of a program's command."""
    words = ["irv", command.name]
    for option in options_of(command.name):
        text = f"{option.name} {option.value('value')}"
        words.append(f"[{text}]" if option.value("default") else text)
    return " ".join(words + ["< CONFIGURATION"] * (command.value("input") is not None))


def values(option: Entry) -> str:
    """Returns an option's values in words, as Markdown."""
    value, numbers = option.value("value"), option.value("range")
    if value == "FILE":
        return "a file's name"
    if numbers is None:
        return ", ".join(f"`{word}`" for word in value.split("|"))
    least, most = numbers.split()
    return f"a whole number, {least} to {most}"


def option_rows() -> List[List[str]]:
    """Returns the cells of the option table: option, values, default, commands."""
    return [[f"`{option.name}`", values(option),
             f"`{option.value('default')}`" if option.value("default") else "none, needed",
             option.value("commands").replace(" ", ", ")] for option in of_kind("option")]


def table() -> str:
    """Returns the table of options as Markdown."""
    rows = [["option", "values", "default", "commands"], ["---"] * 4, *option_rows()]
    return "".join(f"| {' | '.join(row)} |\n" for row in rows)


def cells_of(line: str) -> List[str]:
    """Returns the cells of a Markdown table row, without backquotes."""
    return [cell.strip().replace("`", "") for cell in re.split(r"(?<!\\)\|", line)[1:-1]]


def is_row(cells: List[str], wanted: List[str]) -> bool:
    """Returns whether a row begins with these cells. A cell may continue after a colon or a
    semicolon."""
    return len(cells) >= len(wanted) and all(
        re.fullmatch(re.escape(text) + r"([:;] .*)?", cell) for cell, text in zip(cells, wanted))


def page_faults(text: str) -> List[str]:
    """Returns a commands page's differences from this table. The page must have each command's call
    on its own line, and a row for each launcher option. Each option and exit status needs a row
    that begins with this table's cells."""
    lines = text.splitlines()
    rows = [cells_of(line) for line in lines if line.startswith("|")]
    wanted = [[cell.replace("`", "") for cell in row] for row in option_rows()]
    wanted += [[status.name, status.value("name")] for status in of_kind("status")
               if status.name != "125"]
    faults = [f"no row begins with | {' | '.join(row)} |" for row in wanted
              if not any(is_row(cells, row) for cells in rows)]
    calls = [f"./{usage(command)}" for command in of_kind("command")]
    faults += [f"no line is `{call}`" for call in calls if call not in lines]
    named = {word.rstrip(",") for cells in rows for word in cells[0].split()
             if re.match(r"--[a-z]", word)}
    known = {entry.name for entry in of_kind("launcher")}
    faults += [f"no row is about {name} of the launcher" for name in sorted(known - named)]
    known |= {entry.name for entry in of_kind("option")}
    known |= {parts[0].split()[0] for entry in of_kind("launcher")
              for parts in entry.parts("option")}
    return faults + [f"a row is about {name}, which is not in the table"
                     for name in sorted(named - known)]
