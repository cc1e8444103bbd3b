"""Lists the definitions behind the contract of `run` in reading order.

A definition is needed if the clauses of `run` or a needed definition name it. So are the types,
traits and constants of the code that they use. A file's `use` lines resolve names. Comments,
imports and type invariants do not count as lines. The standard library and ported crates are left
out.
"""

from __future__ import annotations

import functools
import re
from collections import deque
from pathlib import Path
from typing import Iterator

from irvtools.paths import TOP

CRATES = TOP / "crates"


def use(root):
    """Reads another copy of the repository from now on."""
    global CRATES
    CRATES = root / "crates"
    for cached in (declared_in, place_of, mentioned):
        cached.cache_clear()


# the call for all of the program's work: file and name
TOP_CALL = "ilk_top.src.program", "run"
# The reading stages: title, first definitions, and crates. The first stage with a definition lists
# it.
VERDICT = [("ilk_engine.specs.Right", "IsRightVerdict"), ("ilk_engine.specs.Forever", "SafeVerdictMeansAlwaysSafe")]
STAGES = [
    ("The answer", [TOP_CALL], ["ilk_top", "ilk_answers"]),
    ("Verdicts", VERDICT,
     ["ilk_engine", "ilk_forever", "ilk_induct", "ilk_queries", "ilk_unroll"]),
    ("Runs, events, hazards and the invariant", VERDICT, ["ilk_model", "ilk_motion", "ilk_routes"]),
    ("The plant and its states", VERDICT, ["ilk_plant", "ilk_base"]),
    ("From the configuration to the plant", [("ilk_answers.specs.Answer", "plant_or_refusals_of_conf"),
                                             ("ilk_answers.specs.Refusal", "refusal_line")], None),
    ("Runs as texts",
     [("ilk_replay.specs.RunText", "run_text"), ("ilk_replay.specs.Told", "run_from_text"),
      ("ilk_replay.specs.Told", "run_from_start"), ("ilk_replay.specs.Seen", "replay_result")], None),
    ("The command line", [("ilk_words.specs.Words", "parsed_command"),
                          ("ilk_words.specs.Limits", "within_option_limits"),
                          ("ilk_words.specs.Plan", "plan_of")], None),
    ("Reading and writing", [TOP_CALL], ["ilk_io"]),
    ("Scenarios and drives", [("ilk_answers.specs.Drives", "AnswersScenarioText")], ["ilk_drive"]),
    ("The routes of a network", [("ilk_answers.specs.Tables", "ReplyHasValidNetworkTable")], ["ilk_tablegen"]),
    ("Generated stations", [TOP_CALL], ["ilk_gen"]),
    ("Configurations as texts", [TOP_CALL], ["ilk_conf_write", "ilk_tablegen"]),
    ("Formulas", [("ilk_dimacs.specs.DimacsText", "dimacs_text"),
                  ("ilk_unroll.specs.Satisfied", "IsSatisfiable")], None),
    ("Certificates", [("ilk_certificate.specs.Certificate", "IsValidCertificate")], None),
    ("The first bad line of a certificate", [("ilk_answers.specs.Audits", "AnswersAudit")], None),
    ("Refutations", [("ilk_answers.specs.Refutations", "AnswersRefutationText")], None),
    ("Spent texts, and the certificate of a verdict",
     [("ilk_engine.specs.CertificateOf", "IsCertificateTextOfVerdict")], None),
    ("Construction of formulas", [TOP_CALL], None),
]
# First names of a formula's construction: a query's formula, a plant's system and goal. Only the
# last stage goes on from these.
FORMULA = frozenset({"query_formula", "system_of_plant", "goal_forms_of_plant"})
# first definitions of some statements and of a configuration's rules
FOREVER = [("ilk_forever.specs.Forever", "AlwaysKeepsInvariant")]
EVENTS = [("ilk_queries.specs.Asked", "HasQueriedRun")]
EVIDENCE = [("ilk_unroll.specs.Evidence", name) for name in ("HoldsForNoneUpTo", "ReachesHazard", "ReachesBreach")]
PLANT = [("ilk_answers.specs.Answer", "plant_or_refusals_of_conf")]
CLEAN = [("ilk_answers.specs.Strict", "IsCleanAndKeepsInvariant")]
RULES = frozenset({"network_rules_broken", "table_rules_broken", "column_rules_broken",
                   "broken_for_column_rule"})
USE = re.compile(r"use Rattle\.([\w.]+)(?:\.\{(.*)\}| as (\w+));?")
RUST_USE = re.compile(r"^use (crate|ilk_\w+)::(?:\{([\w, \n]*)\}|(\w+));", re.M)
HEAD = re.compile(r"(?:unfoldable |abbrev |infixr? \d+ )*pub "
                  r"(?:record |syntax |data )?(◌?[^\s(:{]+)")
WORD = re.compile(r"[^\s(){}.,;:λ\[\]<>&]+")
# declarations: a type, a trait, a constant, or the call above
RUST_HEAD = re.compile(rf"pub (?:struct|enum|trait|const|type|fn(?= {TOP_CALL[1]}\b)) (\w+)")
VIEW = re.compile(r"impl(?:<.*?>)? Model for (\w+)")


def uses_of(text):
    """Returns the names that the `use` lines import, each with its module and its name there."""
    names = {}
    for module, listed, alias in USE.findall(text):
        if alias:
            names[alias] = (module, None)
        for item in filter(None, (part.strip() for part in listed.split(","))):
            name, _, other = item.partition(" as ")
            names[other or name] = (module, name)
    return names


class File:
    """A file of definitions, with their lines and the imported names."""

    def __init__(self, path):
        text = path.read_text(encoding="utf-8")
        self.uses = uses_of(text)
        self.items = {}
        name, together = None, False
        for line in text.split("\n"):
            if not line.startswith(" ") and line.strip():
                # mutual definitions are indented below this line
                together = line in ("abbrev mutual", "mutual")
                if together:
                    continue
            head = HEAD.match(line.lstrip() if together else line)
            if head:
                name = head[1]
                self.items.setdefault(name, [])
            if line.lstrip().startswith(("use ", "--", "pub mod ")) or not line.strip():
                continue
            if name:
                self.items[name].append(line)

    def named(self, module, word):
        """Returns the definition that a word of this file names, or `None`."""
        if word in self.uses:
            return self.uses[word]
        return (module, word) if word in self.items else None


class Code:
    """A code file: its declarations with lines, and the imported names."""

    def __init__(self, path):
        text = path.read_text(encoding="utf-8")
        self.crate = path.relative_to(CRATES).parts[0]
        self.uses = uses_of(text)
        self.imports = {}
        for crate, listed, single in RUST_USE.findall(text):
            for name in re.findall(r"\w+", listed or single):
                self.imports[name] = self.crate if crate == "crate" else crate
        self.items, name = {}, None
        for line in text.split("\n"):
            head = RUST_HEAD.match(line) or VIEW.match(line)
            if head:
                name = head[1]
                self.items.setdefault(name, [])
            shown = line.strip()
            left_out = ("//", "#[", "ghost use", "ghost invariant")
            if name and shown and not shown.startswith(left_out):
                self.items[name].append(line)
            if line in ("}", "{") or (not line.startswith(" ") and line.endswith(("}", ";"))):
                name = None

    def named(self, module, word):
        """Returns the definition or declaration that a word of this file names, or `None`."""
        if word in self.uses:
            return self.uses[word]
        if word in self.items:
            return module, word
        return declared_in(self.imports[word]).get(word) if word in self.imports else None


@functools.cache
def declared_in(crate):
    """Returns the names declared in a crate's code, with modules."""
    found = {}
    for path in sorted((CRATES / crate / "src").rglob("*.rt")):
        for head in map(RUST_HEAD.match, path.read_text(encoding="utf-8").split("\n")):
            if head:
                place = path.relative_to(CRATES).with_suffix("")
                found.setdefault(head[1], (".".join(place.parts), head[1]))
    return found


@functools.cache
def place_of(module, name):
    """Returns the file and the name there; `None` outside this repository."""
    crate, *rest = module.split(".")
    if not crate.startswith("ilk_"):
        return None
    if rest[:2] == ["specs", "declared"]:
        # a constant, or a type with named parts
        *modules, last = rest[2:]
        if last != "TheConstants":
            name = modules.pop() if last.startswith("The") else last
        return CRATES / crate / "src" / ("/".join(modules) + ".rt"), name
    ending = {"specs": ".antt", "src": ".rt"}.get(rest[0])
    return (CRATES / crate / ("/".join(rest) + ending), name) if ending else None


def names_in(line):
    """Returns the names in a line outside strings, with those of operators and `do` blocks."""
    words = WORD.findall(re.sub(r'"[^"]*"', "", line))
    return words + [f"◌{word}◌" for word in words] + (["◌>>=◌"] if "do" in words else [])


@functools.cache
def file_at(path):
    """Returns a file's definitions or declarations."""
    return File(path) if path.suffix == ".antt" else Code(path)


@functools.cache
def mentioned(path: Path, name: str) -> list[tuple[str, str]]:
    """Returns what a definition of a file mentions, each once, in order."""
    file, here = file_at(path), ".".join(path.relative_to(CRATES).with_suffix("").parts)
    words = dict.fromkeys(word for line in file.items[name] for word in names_in(line))
    return list(dict.fromkeys(filter(None, (file.named(here, word) for word in words))))


def needed(roots: list[tuple[str, str]],
           without: frozenset[str] = frozenset()) -> dict[tuple[Path, str], int]:
    """Returns the needed definitions in order of mention: file, name, and lines."""
    found, queue, queued = {}, deque(roots), set(roots)
    while queue:
        module, name = queue.popleft()
        place = None if name in without else place_of(module, name)
        if place is None or place in found or place[1] not in file_at(place[0]).items:
            continue
        found[place] = len(file_at(place[0]).items[place[1]])
        for it in mentioned(*place):
            if it not in queued:
                queued.add(it)
                queue.append(it)
    return found


def stages() -> Iterator[tuple[str, dict[Path, list[tuple[str, int]]]]]:
    """Yields each stage's title and definitions by file, with lines."""
    listed = set()
    for number, (title, roots, crates) in enumerate(STAGES, 1):
        by_file = {}
        without = frozenset() if number == len(STAGES) else FORMULA
        for (path, name), lines in needed(roots, without).items():
            place = path.relative_to(CRATES)
            if (path, name) not in listed and (crates is None or place.parts[0] in crates):
                listed.add((path, name))
                by_file.setdefault(place, []).append((name, lines))
        yield title, by_file


def left_over(last: dict[Path, list[tuple[str, int]]]) -> list[str]:
    """Returns the last stage's definitions that are needed without a formula."""
    reached = needed([TOP_CALL], FORMULA)
    return [f"{place}: {name}" for place, items in last.items() for name, _ in items
            if (CRATES / place, name) in reached]


def lines_of(items: list) -> int:
    """Returns these definitions' total lines."""
    return sum(lines for _, lines in items)
