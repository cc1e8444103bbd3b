"""A command's configuration, in JSON or CSV, and the places of its entries."""

from __future__ import annotations

from irvtools.csvtables import configurations, csv_text, reading
from irvtools.explain.json_places import Places
from irvtools.html.control_table import heading
from irvtools.html.options import name_of_input
from irvtools.rules import schema_rules
from irvtools.rules.explain import Entry


class JsonSource:
    """A configuration as JSON on standard input."""

    def __init__(self, given: bytes) -> None:
        self.given, self.name = given, name_of_input()
        self.places = None

    def place(self, entries: list[Entry]) -> str:
        """Returns the entries' place, in words."""
        if self.places is None and schema_rules.read(self.given)[1] is None:
            self.places = Places(self.given.decode())
        found = [self.places.line_and_column(one.list, one.number, one.member) for one in entries] \
            if self.places else []
        words = [f"line {one[0]}, column {one[1]}" for one in found if one]
        return f"{self.name}, {' and '.join(words)}" if words else self.name


class CsvSource:
    """A configuration as a directory's two CSV files."""

    def __init__(self, directory: str) -> None:
        self.name = directory
        value, self.files = reading.read_with_files(directory)
        self.given = configurations.written(value).encode()

    def place(self, entries: list[Entry]) -> str:
        """Returns the entries' place, in words; for several of one list and member, the lines."""
        if not entries:
            return self.name
        table, member = self.files[entries[0].list], entries[0].member
        lines = [str(table.rows[one.number].line) for one in entries]
        words = f"{table.file}, line{'s' if len(lines) > 1 else ''} {' and '.join(lines)}"
        if member is None:
            return words
        return f"{words}, column {csv_text.letters(table.places[heading(member)])} ({heading(member)})"
