"""The lists of files that a change touches, each compared with a witness: one thing of the list's
kind, and all files that name it. Adding such a thing touches just these files, so the list must
have each, by name or directory."""

import functools
import re

MAP = "CONTRIBUTING.md"
SPAN = re.compile(r"``? ?(.+?) ?``?(?!`)")
# code, definitions, proofs, tools, tests and documents, which may name a thing
SOURCES = ("crates/*/src/**/*.rt", "crates/*/specs/**/*.antt", "crates/*/proofs/**/*.antt", "tools/**/*",
           "tests/**/*", "irv", "*.md", "docs/**/*.md", "examples/*.md")
# Exempt from every list: files written by rt, test cases, JSON, lists of all files, documentation
# tools, and documents of every change.
APART = re.compile(r"/declared/|^tests/cases/|__pycache__|/change_lists\.py$|^tests/(?:docs|traceability)\.py$|^tools/irvtools/docs/|\.json$|"
                   r"^tests/(?:duplicates\.list|line_limits\.counts)$|"
                   r"^(?:README|CHANGELOG|CONTRIBUTING)\.md$|^docs/(?:dev/architecture|assurance/proved|assurance/traceability|assurance/definition-list|reference/glossary|DECISIONS)\.md$")
RULES = "A rule of the network (N), of the table (R), of the columns (C)"


def word_of(event):
    """Returns an event's pattern: its variant, the calls that end in its name, and its word."""
    return rf"\b{event.title()} \(?\w|::{event.title()}\b|_{event}\b|[\"']{event}[\"' ]|\b{event}:"


# a list's heading, the witness, words of which each naming file has one, the pattern
WITNESSES = (
    (RULES, "the rule N8", ("N8",), r"\bN8\b"),
    (RULES, "the rule R8", ("R8",), r"\bR8\b"),
    (RULES, "the rule C8", ("C8",), r"\bC8\b"),
    ("An event", "the event cancel", ("ancel",), word_of("cancel")),
    ("An event", "the event settle", ("ettle",), word_of("settle")),
    ("A third kind of section", "the linear section", ("inear",),
     r"(?<!= )\bLinear(?:Draft)? down up\b|::Linear \{[^{}]*\} (?:=>|\|)|[\"']linear[\"'](?:, \"point\"|: \(|:\n)"),
    ("A family of the invariant", "the family V9", ("9",), r"[Vv]9"),
    ("A command with existing options", "the command drive", ("rive",), r"\bDrive\b|[\"']drive\b"),
    ("Another value for a limit", "the depth", ("16", "MAX_DEPTH"),
     r"MAX_DEPTH|(?<=\w )[≤>] 16\b|\b(?:nat_le|le-leb|leb-true) \S+ 16\b|\b(?:at most|1 to) 16\b"),
    ("A new limit, of what a route lists", "the most protecting boards", ("MAX_PROTECTING_BOARDS",),
     r"\bMAX_PROTECTING_BOARDS\b"),
    ("A member of a route", "the protecting points", ("protecting_points",),
     r"(?<!route\.)\bprotecting_points\"? ?[=:](?!=)"),
    ("A version of the configuration", "version 2", ("Second", "SECOND", "version"),
     r"\bVersion\b.*\bSecond\b|\bSECOND\b(?! ?[,)=])|\bversion\W{1,4}2\b(?!>)"),
)


def list_of(page, heading):
    """Returns a list's text: the lines from its heading to the next one."""
    found = re.search(rf"^#+ {re.escape(heading)}$\n((?:(?!#).*\n)*)", page, re.M)
    return found[1] if found else None


def texts_of(root):
    """Returns the files that may name a thing, by path, with texts."""
    found = {path for pattern in SOURCES for path in root.glob(pattern) if path.is_file()}
    named = {str(path.relative_to(root)): path for path in found}
    return {name: path.read_text(encoding="utf-8", errors="replace")
            for name, path in sorted(named.items()) if not APART.search(name)}


def named_in(text, places):
    """Returns the files and directories that a list names; `places` gives what finds them in a
    line. A directory has a slash, otherwise it is a mentioned crate."""
    found = set()
    for line in text.splitlines():
        line_places = places()
        for span in SPAN.findall(line):
            if re.fullmatch(r"[\w.*/-]+", span):
                found.update(path for path in line_places.all(span) if "/" in span or path.is_file())
    return found


@functools.cache
def is_witness(words, pattern, source):
    """Returns whether a text names a thing: it has one of the words, and the pattern."""
    return any(word in source for word in words) and re.search(pattern, source) is not None


def left_out(root, places):
    """Yields each witness's list, its name, how many files name it, and those missing from the
    list, or `None` without a list."""
    page, texts = (root / MAP).read_text(encoding="utf-8"), texts_of(root)
    for heading, witness, words, pattern in WITNESSES:
        text = list_of(page, heading)
        listed = {str(path.relative_to(root)) for path in named_in(text or "", places)}
        naming = [name for name, source in texts.items() if is_witness(words, pattern, source)]
        missing = [name for name in naming
                   if name not in listed and not any(name.startswith(it + "/") for it in listed)]
        yield heading, witness, len(naming), missing if text else None
