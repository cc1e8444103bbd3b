"""The content of one cell: a word, a name, or a list of them, separated by blanks.

A spreadsheet changes what it takes for a number, a date, a truth value or a formula: 007 becomes 7,
1E5 becomes 100000. So such a cell gets a leading apostrophe, which no name has. Spreadsheets keep
it, or drop it as their own sign of a text; both are read the same.
"""

from __future__ import annotations

import re
from typing import Callable

from irvtools.rules.schema_rules import NAME
from irvtools.calls.refusal import shown
from irvtools.model.phrases import SIGNS, point_word

APOSTROPHE = "'"
POSITIONS = {sign: position for position, sign in SIGNS.items()}

MONTHS = set("""jan feb mar apr may jun jul aug sep sept oct nov dec january february march april june
    july august september october november december mrz mai okt dez januar februar maerz juni juli
    oktober dezember janv fevr mars avr juin juil aout janvier fevrier avril juillet septembre octobre
    novembre decembre ene abr ago dic enero febrero marzo abril mayo junio julio agosto septiembre
    octubre noviembre diciembre gen mag giu lug set ott gennaio febbraio aprile maggio giugno luglio
    settembre ottobre dicembre mrt mei maart augustus fev out janeiro fevereiro maio junho julho
    setembro outubro novembro dezembro maj des januari februari augusti desember marts tammi helmi
    maalis huhti touko elo syys loka marras joulu sty lut kwi cze lip sie wrz paz lis gru led uno bre
    dub kve cer srp zar rij pro febr marc szept ian iun iul noi oca sub nis haz tem agu eyl eki kas ara
    """.split())
TRUTHS = set("""true false wahr falsch vrai faux verdadero falso vero verdadeiro waar onwaar prawda
    sant sand falskt falsk tosi epatosi pravda nepravda igaz hamis adevarat fals tosna istina
    """.split())
# A number, a date, or a spreadsheet's error in place of the cell.
CHANGED = re.compile(r"#.*|[-+]?[0-9][0-9.,:/ ]*(?:E[-+]?[0-9]+)?", re.I)


def is_plain(cell):
    """Returns whether every spreadsheet takes a cell for text: it begins with a letter or _, and is
    neither a truth value nor a date such as MAR-1."""
    if not re.match("[A-Za-z_]|$", cell):
        return False
    begin = re.match("[A-Za-z]*", cell)[0].lower()
    is_date = begin in MONTHS and re.search("[0-9]", cell)
    return not is_date and cell.lower() not in TRUTHS


def kept(cell: str) -> str:
    """Returns a cell as written, so that spreadsheets don't change it."""
    return cell if is_plain(cell) else APOSTROPHE + cell


def bare(cell: str) -> str:
    """Returns a cell's text without its protecting apostrophe."""
    return cell.strip().removeprefix(APOSTROPHE)


def words(cell: str) -> list[str]:
    """Returns the words of a cell that was read."""
    return bare(cell).split()


def list_text(names: list[str]) -> str:
    """Returns a cell with a list of names."""
    return kept(" ".join(names))


def points_text(points: list[dict[str, str]]) -> str:
    """Returns a cell with a list of points."""
    return kept(" ".join(map(point_word, points)))


class WrongCell(Exception):
    """A cell with unexpected content; the sentence describes it."""


def one_word(cell):
    """Returns the only word of a cell, or `None` if it is empty."""
    found = words(cell)
    if len(found) > 1:
        raise WrongCell(f"{shown(cell)} has {len(found)} words, and one was expected")
    return found[0] if found else None


def name(word):
    """Returns a word that has to be a name."""
    if not NAME.fullmatch(word):
        raise WrongCell(f"{shown(word)} is no name; 1 to 32 of the characters A to Z, a to z, 0 to 9, _ "
                        f"and - were expected{hint(word)}")
    return word


def hint(word):
    """Returns a hint at the likely cause of a wrong word."""
    return ": a spreadsheet may have made this of a name" if CHANGED.fullmatch(word) else ""


def name_or_none(cell: str) -> str | None:
    """Returns the name in a cell, or `None` if it is empty."""
    word = one_word(cell)
    return None if word is None else name(word)


def needed_name(cell: str) -> str:
    """Returns the name in a cell that may not be empty."""
    found = name_or_none(cell)
    if found is None:
        raise WrongCell("the cell is empty, and a name was expected")
    return found


def one_of(choices: tuple[str, ...]) -> Callable[[str], str]:
    """Returns a reader of a cell with one of some words."""
    def read(cell):
        word = one_word(cell)
        if word not in choices:
            there = "the cell is empty" if word is None else f"there stands {shown(word)}"
            raise WrongCell(f"{there}, and {' or '.join(choices)} was expected")
        return word
    return read


def names(cell: str) -> list[str]:
    """Returns the names of a list."""
    return [name(word) for word in words(cell)]


def points(cell: str) -> list[dict[str, str]]:
    """Returns the points of a list, each with its position."""
    return [point(word) for word in words(cell)]


def point(word):
    """Returns a point with its position, from a word such as W1+ or W1-."""
    if word[-1] not in POSITIONS or not NAME.fullmatch(word[:-1]):
        raise WrongCell(f"{shown(word)} is no point with its position; a name with + for plus or - for "
                        f"minus behind it, as W1+, was expected{hint(word)}")
    return {"point": word[:-1], "position": POSITIONS[word[-1]]}
