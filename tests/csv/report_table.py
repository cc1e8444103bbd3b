"""The sheet of routes on a configuration's page."""

import csv
import io
import json
from html.parser import HTMLParser
from types import SimpleNamespace

from irvtools.csvtables import writing
from irvtools.csvtables.columns import ROUTES
from irvtools.html.report import Report
from irvtools.model.plant import Plant
from irvtools.html.control_table import LONGEST_CELL, sheet_part

SHOWN = 90              # characters of a wrong cell


class Rows(HTMLParser):
    """A parser that collects table rows as lists of cell texts."""

    def __init__(self, markup):
        super().__init__(convert_charrefs=True)
        self.rows, self.is_cell = [], False
        self.feed(markup)
        self.close()

    def handle_starttag(self, tag, _):
        if tag == "tr":
            self.rows.append([])
        if tag in ("td", "th"):
            self.rows[-1].append("")
            self.is_cell = True

    def handle_endtag(self, tag):
        self.is_cell = self.is_cell and tag == "span"

    def handle_data(self, data):
        if self.is_cell:
            self.rows[-1][-1] += data


def on_page(value):
    """Returns the rows of the sheet on a configuration's page."""
    page = Report(SimpleNamespace(program="", name="a plant"), b"")
    page.plant = Plant(value)
    sheet_part(page)
    return Rows("".join(page.parts)).rows


def page_faults(given):
    """Yields the page sheet's differences from routes.csv."""
    value = json.loads(given)
    found = on_page(value)
    head, *rows = csv.reader(io.StringIO(writing.csv_texts(value)[ROUTES]))
    wanted = [["no.", *head], *([str(number), *map(seen, row)] for number, row in enumerate(rows))]
    if found != (wanted if rows else []):
        yield f"{len(found)} rows stand for {len(wanted)}"
        pairs = [pair for one, other in zip(found, wanted) for pair in zip(one, other)]
        yield from (f"{one[:SHOWN]!r} stands for {other[:SHOWN]!r}" for one, other in pairs if one != other)


def seen(cell):
    """Returns a cell of routes.csv as displayed: without its protecting apostrophe, cut as on the
    page."""
    cell = cell.removeprefix("'")
    return cell if len(cell) <= LONGEST_CELL else cell[:LONGEST_CELL] + " … (cut)"
