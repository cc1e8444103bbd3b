"""Reads and writes CSV by RFC 4180 and as spreadsheets write it: also with semicolons, and with a
leading byte order mark.

It is hand-written to report each fault with line and column, which the module `csv` doesn't give.

A quotation mark opens a quoted cell only as its first character; inside it, two are one. Lines end
with CR LF, LF or CR.
"""

from __future__ import annotations

import re
from typing import Iterable

from irvtools.calls.refusal import Refused

COMMA, SEMICOLON = ",", ";"
QUOTE = '"'
MARK = "\ufeff"         # marks UTF-8 in spreadsheets' files
ENDS = re.compile("\r\n|\r|\n")


class Row:
    """A row: its first line in the file, from 1, and its cells."""

    def __init__(self, line, cells):
        self.line, self.cells = line, cells


def letters(number: int) -> str:
    """Returns a spreadsheet's letters for a column, by its number from 0."""
    word = ""
    while number >= 0:
        word = chr(ord("A") + number % 26) + word
        number = number // 26 - 1
    return word


class Reader:
    """Reads the rows of a text."""

    def __init__(self, file, text, separator):
        self.file, self.text, self.separator = file, text, separator
        self.at, self.line = 0, 1
        self.plain = re.compile(f'[^\r\n{separator}]*')
        self.quoted = re.compile('[^"]*')

    def rows(self):
        """Yields the rows in order."""
        while self.at < len(self.text):
            yield self.row()

    def row(self):
        """Returns the next row, and takes its line end."""
        row = Row(self.line, [])
        while True:
            row.cells.append(self.cell(row))
            if not self.text.startswith(self.separator, self.at):
                break
            self.at += 1
        self.end(row)
        return row

    def cell(self, row):
        """Returns the next cell, and stops after it."""
        if self.text.startswith(QUOTE, self.at):
            return self.cell_in_quotes(row)
        cell = self.take(self.plain)
        if QUOTE in cell:
            raise self.refused(row, "a quotation mark inside a cell that doesn't begin with one; "
                                    "a cell in quotation marks, each inside doubled, was expected")
        return cell

    def cell_in_quotes(self, row):
        """Returns a quoted cell."""
        parts = []
        while True:
            self.at += 1
            parts.append(self.take(self.quoted))
            if self.at == len(self.text):
                raise self.refused(row, "a cell in quotation marks has no end; the mark that closes it "
                                        "was expected")
            self.at += 1
            if not self.text.startswith(QUOTE, self.at):
                break
        cell = QUOTE.join(parts)
        self.line += len(ENDS.findall(cell))
        return cell

    def take(self, pattern):
        """Returns the text that matches a pattern here."""
        found = pattern.match(self.text, self.at)
        self.at = found.end()
        return found[0]

    def end(self, row):
        """Takes the end of a line or text."""
        if self.at == len(self.text):
            return
        found = ENDS.match(self.text, self.at)
        if not found:
            raise self.refused(row, "text behind the quotation mark that closes a cell; the next cell "
                                    "was expected", len(row.cells) - 1)
        self.at = found.end()
        self.line += 1

    def refused(self, row, why, column=None):
        """Returns a fault of a cell, by default the one being read."""
        column = letters(len(row.cells) if column is None else column)
        return Refused(f"{self.file}, line {row.line}, column {column}: {why}")


def read(file: str, text: str, separator: str) -> list[Row]:
    """Returns the rows of a text. Messages use the file's name."""
    return list(Reader(file, text.removeprefix(MARK), separator).rows())


def first_row(text: str, separator: str) -> list[str]:
    """Returns the first line's cells, with any content, for choosing the separator."""
    line = ENDS.split(text.removeprefix(MARK), maxsplit=1)[0]
    return [cell.strip(' "') for cell in line.split(separator)]


def quoted(cell):
    """Returns a cell as written. Only comments and labels need quotation marks: they may have any
    characters."""
    return f'"{cell.replace(QUOTE, QUOTE * 2)}"' if re.search('[",;\r\n]', cell) else cell


def written(rows: Iterable[Iterable[str]]) -> str:
    """Returns rows of cells as a text."""
    return "".join(",".join(map(quoted, row)) + "\r\n" for row in rows)
