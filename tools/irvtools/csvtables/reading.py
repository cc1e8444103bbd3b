"""Reads a configuration from two CSV files. Each fault of both files is reported in order, with
file, line and column.
"""

from __future__ import annotations

from pathlib import Path
from typing import Any

from irvtools.csvtables import cells
from irvtools.csvtables import columns
from irvtools.csvtables import csv_text
from irvtools.csvtables import spreadsheets
from irvtools.csvtables.configurations import read_text
from irvtools.calls.refusal import Refused, shown


class CsvFile:
    """The rows of a CSV file, with each column's place. Empty rows and columns are skipped. `extra`
    has the places of comments and of the optional columns `labels`, by heading."""

    def __init__(self, file, text, known, labels=()):
        self.file, self.labels = file, labels
        rows = [row for row in csv_text.read(file, text, separator_of(text, known))
                if any(cell.strip() for cell in row.cells)]
        if not rows:
            raise Refused(f"{file}: nothing stands in it; a line of headings was expected")
        self.head, self.rows = rows[0], rows[1:]
        self.places, self.extra = {}, {}
        self.faults = list(self.read_head([one.heading for one in known]))

    def read_head(self, known):
        """Reads the headings, and yields their faults."""
        for place, cell in enumerate(self.head.cells):
            heading = heading_of(cell)
            if heading in self.places or heading in map(heading_of, self.extra):
                yield self.at(self.head, place, f"the heading {heading} stands here again")
            elif heading in known:
                self.places[heading] = place
            elif heading in self.labels or heading.startswith(columns.COMMENT):
                self.extra[heading if heading in self.labels else cell.strip()] = place
            elif heading or any(cell_at(row, place).strip() for row in self.rows):
                yield self.at(self.head, place, f"{shown(cell)} is no heading; {', '.join(known)} "
                                                "were expected")
        for row in self.rows:
            if any(cell.strip() for cell in row.cells[len(self.head.cells):]):
                yield self.at(row, len(self.head.cells), "a cell behind the last heading; an empty cell "
                                                         "was expected")

    def at(self, row, place, why):
        """Returns a fault at a cell."""
        heading = heading_of(cell_at(self.head, place))
        named = f" ({heading})" if row is not self.head and heading else ""
        return f"{self.file}, line {row.line}, column {csv_text.letters(place)}{named}: {why}"

    def require(self, wanted):
        """Reports missing headings."""
        for heading in wanted:
            if heading not in self.places:
                self.faults.append(f"{self.file}, line {self.head.line}: the column {heading} is missing")

    def cell(self, row, column):
        """Returns the cell of a column."""
        return cell_at(row, self.places[column.heading])

    def with_extra(self, row, entry):
        """Returns an entry with its row's comments and labels, if the file has such columns."""
        if not self.extra:
            return entry
        texts = {heading: cell_at(row, place) for heading, place in self.extra.items()}
        return {**entry, columns.EXTRA: {
            heading: cells.bare(text) if heading in self.labels else text
            for heading, text in texts.items()}}

    def read_cell(self, row, column):
        """Returns a cell's value. Returns `None` and records a fault if it is wrong."""
        try:
            return column.read(self.cell(row, column))
        except cells.WrongCell as fault:
            self.faults.append(self.at(row, self.places[column.heading], str(fault)))
            return None


def cell_at(row, place):
    """Returns a cell, or an empty one if the row ends before it, as spreadsheets write rows."""
    return row.cells[place] if place < len(row.cells) else ""


def heading_of(cell):
    """Returns a heading for comparison: lowercase, with single blanks."""
    return " ".join(cell.lower().split())


def separator_of(text, known):
    """Returns the separator that gives more known headings."""
    headings = [one.heading for one in known]

    def count(separator):
        return sum(heading_of(cell) in headings for cell in csv_text.first_row(text, separator))
    return max((csv_text.COMMA, csv_text.SEMICOLON), key=count)


def read_section(table, row):
    """Returns the section of a row."""
    by_member = {one.member: one for one in columns.OF_SECTIONS}
    kind = table.read_cell(row, by_member["kind"])
    if kind is None:
        return {}
    own = columns.of_section(kind)
    for column in columns.OF_SECTIONS:
        if column not in own and cells.words(table.cell(row, column)):
            table.faults.append(table.at(
                row, table.places[column.heading],
                f"a {kind if kind == 'point' else 'linear section'} has no {column.heading}; an empty "
                "cell was expected"))
    return {member: table.read_cell(row, by_member[member]) for member in columns.MEMBERS[kind]}


def sections_of(text, file):
    """Returns the CSV file of sections and its sections."""
    table = CsvFile(file, text, columns.OF_SECTIONS, columns.LABELS[columns.SECTIONS])
    table.require([one.heading for one in columns.OF_SECTIONS])
    if table.faults:
        return table, []
    return table, [table.with_extra(row, read_section(table, row)) for row in table.rows]


def routes_of(text, file):
    """Returns the CSV file of routes, the version and the routes. The version is 2 with a
    protection column."""
    table = CsvFile(file, text, columns.of_routes(2), columns.LABELS[columns.ROUTES])
    version = 2 if any(one.heading in table.places for one in columns.PROTECTING) else 1
    known = columns.of_routes(version)
    table.require([one.heading for one in known])
    if table.faults:
        return table, version, []
    return table, version, [
        table.with_extra(row, {one.member: table.read_cell(row, one) for one in known})
        for row in table.rows]


def read_sections(text: str,
                  file: str = columns.SECTIONS) -> tuple[list[dict[str, Any]], list[str]]:
    """Returns the sections of a CSV file, and its faults."""
    table, sections = sections_of(text, file)
    return sections, table.faults


def read_routes(text: str,
                file: str = columns.ROUTES) -> tuple[int, list[dict[str, Any]], list[str]]:
    """Returns the version and routes of a CSV file, and its faults."""
    table, version, routes = routes_of(text, file)
    return version, routes, table.faults


def read_directory(directory: str | Path) -> dict[str, Any]:
    """Returns the configuration in a directory's CSV files."""
    return read_with_files(directory)[0]


def read_with_files(directory: str | Path) -> tuple[dict[str, Any], dict[str, CsvFile]]:
    """Returns the configuration in a directory's CSV files, and these files."""
    spreadsheets.refuse_directory(directory)
    faults, found = [], []
    for file, read in ((columns.SECTIONS, sections_of), (columns.ROUTES, routes_of)):
        try:
            path = str(Path(directory, file))
            table, *values = read(read_text(path, "a CSV file"), path)
            found.append((table, values))
            faults += table.faults
        except Refused as refused:
            faults += refused.faults
    if faults:
        raise Refused(*faults)
    (of_sections, (sections,)), (of_routes, (version, routes)) = found
    value = {"version": version, "sections": sections, "routes": routes}
    if of_sections.extra or of_routes.extra:
        value[columns.EXTRA] = {"sections": list(of_sections.extra), "routes": list(of_routes.extra)}
    return value, {"sections": of_sections, "routes": of_routes}
