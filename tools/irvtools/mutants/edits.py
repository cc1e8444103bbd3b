"""Mutants: an edit of a crate, and the functions that it changes.

An edit is a file of lines `file: PATH`, `old: TEXT` and `new: TEXT`. Each text is one line that the
file has once; further pairs apply after earlier ones.
"""

import re
from dataclasses import dataclass
from pathlib import Path

from irvtools.mutants.functions import functions_of


class BadEdit(Exception):
    """The reason why an edit tests no contract."""


@dataclass(frozen=True)
class Edit:
    """An edit: file, changes (path, old text, new text), and the changed or added functions.
    `is_confined`: other functions' proofs see no change."""

    file: Path
    changes: tuple
    functions: tuple
    is_confined: bool

    @property
    def name(self):
        """Returns the crate and the edit."""
        return f"{self.file.parent.parent.name}/{self.file.stem}"

    def keys(self):
        """Returns the functions and call cycles that no other edit of the round may change."""
        return {f"cycle {it.cycle}" if it.cycle else it.path for it in self.functions}


def changes_of(text):
    """Returns the changes in an edit's text."""
    path, old, found = "", None, []
    for line in text.split("\n"):
        word, _, rest = line.partition(":")
        rest = rest.removeprefix(" ")
        if word == "file":
            path = rest.strip()
            if not re.fullmatch(r"src/[\w/]+\.rt", path):
                raise BadEdit("a 'file:' line names no file of code below src/")
        elif word == "old":
            old = rest
        elif word == "new":
            if not path or not old:
                raise BadEdit("a 'new:' line stands before any 'file:' or 'old:' line")
            found.append((path, old, rest))
            old = None
        elif line.strip():
            raise BadEdit(f"a line begins with none of 'file:', 'old:' and 'new:': {line[:60]}")
    if not found or old is not None:
        raise BadEdit("it has no 'old:' line that a 'new:' line follows")
    return found


def edited(sources, changes):
    """Returns the changed files' texts, from the sources by path."""
    texts = {}
    for path, old, new in changes:
        if path not in sources:
            raise BadEdit(f"there is no file {path}")
        text = texts.get(path, sources[path])
        if text.count(old) != 1:
            raise BadEdit(f"an 'old:' text is in {path} {text.count(old)} times, and not once")
        if old == new:
            raise BadEdit("it changes nothing")
        texts[path] = text.replace(old, new)
    return texts


def place_of(path, text, old):
    """Returns the function around a text, if any, and whether the text is in its body."""
    line = text[: text.index(old)].count("\n")
    for function in functions_of(path, text):
        if function.first <= line <= function.last:
            return function, line > function.body or function.body == function.last
    return None, False


def is_named_elsewhere(function, sources):
    """Returns whether the code names a function outside declarations and re-exports."""
    uses = (line for text in sources.values() for line in text.split("\n")
            if re.search(rf"\b{function.name}\b", line))
    return any(f"fn {function.name}" not in line and not re.match(r"\s*(?:pub )?use |\s*//", line)
               for line in uses)


def added(path, before, after):
    """Returns the functions that a change adds to a file."""
    there = {it.path for it in functions_of(path, before)}
    return [it for it in functions_of(path, after) if it.path not in there]


def read_edit(file, sources):
    """Returns a file's edit of its crate's sources, by path."""
    changes = changes_of(file.read_text())
    edited(sources, changes)
    texts, functions, is_confined = dict(sources), [], True
    for path, old, new in changes:
        function, is_in_body = place_of(path, texts[path], old)
        if function and function.path not in [it.path for it in functions]:
            functions.append(function)
        is_confined = is_confined and bool(function) and (
            is_in_body or not is_named_elsewhere(function, sources))
        texts[path] = texts[path].replace(old, new)
        functions += added(path, sources[path], texts[path])
    return Edit(file, tuple(changes), tuple(functions), is_confined)


def can_share(edits, edit, sources):
    """Returns whether an edit can be tested beside others: no other function sees any of them, no
    two change the same, and each still finds its text once."""
    if not all(it.is_confined for it in (edit, *edits)) or any(edit.keys() & it.keys() for it in edits):
        return False
    try:
        edited(sources, [change for it in (*edits, edit) for change in it.changes])
    except BadEdit:
        return False
    return True


def rounds_of(edits, sources):
    """Sorts edits into rounds that are tested together."""
    rounds = []
    for edit in edits:
        room = next((it for it in rounds if can_share(it, edit, sources)), None)
        if room is None:
            rounds.append([edit])
        else:
            room.append(edit)
    return rounds
