"""Checks the documents against the sources.

- The map's tables of crates equal crates.txt, in order, with each crate after its dependencies. The
  diagram and the page of what is proved have each crate except test crates.
- The theorems and the checker for safety without search depend on no crate of the search.
- `tools/definitions` generates the list of definitions. Those that `run`'s clauses reach without a
  formula come before the last section.
- Each link leads to a file, each heading named after a link is in it, and each name in a link's
  words is declared in it.
- Each path in backquotes exists, and each name there is declared (`Names.is_known`).
- The commands page has the commands, options and exit statuses of the program's tables.
- The change lists have each file that names their witness (`support/change_lists.py`).
- No public contract reaches a definition file that says that only private contracts or proofs cite
  it (`support/reached_definitions.py`).
- Options, files, tools, tests and modules have no old name (`OLD_NAMES`).
"""

import functools
import re
import shutil
import subprocess
import tempfile
from pathlib import Path

from tests.support import reached_definitions
from tests.support import change_lists
from irvtools.docs.links import REFERENCE, TARGET, with_targets
from irvtools.docs.tables import rows
from irvtools.paths import TOP
from irvtools.release import agreement
from tests.support.harness import Test

TAKES_LONG = True

DOCUMENTS = ("README.md", "CONTRIBUTING.md", "docs/**/*.md", "tests/README.md", "tests/cases/README.md",
             "tools/README.md", "examples/README.md")
FENCE = re.compile(r"^```.*?^```", re.S | re.M)
SPAN = re.compile(r"``? ?(.+?) ?``?(?!`)")
LINK = re.compile(r"\[([^\]]*)\]\(([^)\s]+)\)(?:, \"([^\"]+)\")?")
FILE_NAME = re.compile(r"[\w.*-]+\.(?:antt|rt|md|py|js|cases|table|json|run|scene|edit|txt|list|counts)")
# Build products, which documents name although the repository does not have them.
MADE = ("out/", "crates/irv/out/irv")
# Names of earlier versions, allowed only in the changelog and here.
OLD_NAMES = {
    "an option": r"(?<![\w-])--(?:try|page|wait|hunt|play|sheet|case|want|wanted|lot|battery)\b",
    "a tool": r"\btools/(?:hunt|many|safe_by|speed|case|page|play|sheet|bodies|wrong_bodies)\b",
    "a test": r"\btests/(?:twice|walls|called|together|hunted|largest|try_audit|try_rup|try_memory|wrong_bodies"
              r"|sessions|same_bytes|case|page|play|sheet|many|speed|lib)\b",
    "a directory": r"\bwrong-bodies\b|\b(?:page|case|play|sheet|many|launcher|release|speed)_parts\b"
                   r"|\b(?:page|play|sheet|many|case|launcher)_lib\b",
    "a module": r"\b(?:twins|crews|wishes|told|beside|pulling|marks_of|asking|hunting|hunters|hunted|lots|wants)\.py\b"
                r"|\b\w+_trials\b",
    "a job word": r"\bsafe_by\b|\bwanted\.csv\b",
    "a document": r"\bdocs/(?:ARCHITECTURE|ASSESSOR|CASES|COMMANDS|FORMATS|MANY|MODEL|PAGE|PLAY|PROVED"
                  r"|QUALIFICATION|RELEASES|SHEETS|SPEED|TRACEABILITY)\.md",
}
KEEPS_OLD_NAMES = ("CHANGELOG.md", "tests/docs.py")
# Theorems and the checker of certificates, which show safety without search.
APART_FROM_SEARCH = ("ilk_unroll", "ilk_forever", "ilk_plant_audit", "ilk_strict")
# Tests that the qualification page names; tests/release checks that they exist.
COMPARED = {name for one in agreement.CHECKS for name in one.tests}
# Names in backquotes that are not of this repository, with the reason.
FOREIGN = {"Fn": "a trait of Rust", "col": "an example of an option that there isn't"}


def read(path):
    """Returns the text of a file."""
    return path.read_text(encoding="utf-8")


def crates_of(root):
    """Returns the crates of crates.txt with their dependencies."""
    lines = (line.partition("#")[0] for line in read(root / "crates.txt").splitlines())
    return {name.strip(): rest.split() for name, colon, rest in (it.partition(":") for it in lines)
            if colon}


def spans(text):
    """Returns the texts in backquotes."""
    return SPAN.findall(text)


class Repository:
    """A copy of the repository, and what it declares, on demand."""

    def __init__(self, root):
        self.root = root

    @functools.cached_property
    def names(self):
        """Returns what it declares."""
        return Names(self.root)


class Seen:
    """The number of true answers, and the faults."""

    def __init__(self):
        self.passed, self.faults = 0, []

    def ask(self, is_so, fault):
        """Counts one question; `fault` describes a false answer."""
        if is_so:
            self.passed += 1
        else:
            self.faults.append(fault)

    def same(self, what, told, wanted):
        """Asks whether `told` is `wanted`. The fault about lists names missing and extra items."""
        fault = f"{told!r} is told, and {wanted!r} is so"
        if isinstance(told, list) and isinstance(wanted, list):
            less = [item for item in wanted if item not in told]
            more = [item for item in told if item not in wanted]
            fault = f"{less} left out, {more} too much" if less or more else f"not in the order {wanted}"
        self.ask(told == wanted, f"{what}: {fault}")


def see_map(repository, seen):
    """The map has crates.txt's crates in order, and each crate there comes after its dependencies."""
    root = repository.root
    crates = crates_of(root)
    page = read(root / "docs/dev/architecture.md")
    table = rows(page, "crate", "purpose", "in the literature")
    told = [spans(cells[0])[0] for cells in table]
    where = "architecture.md, the crates"
    for name in crates:
        seen.ask(name in told, f"{where}: {name} has no row")
    for name in told:
        seen.ask(name in crates, f"{where}: {name} is not a crate of crates.txt")
    seen.ask(len(set(told)) == len(told), f"{where}: a crate has two rows")
    place = {name: number for number, name in enumerate(crates)}
    for name, edges in crates.items():
        for low in (low for low in edges if low in place):
            seen.ask(place[low] < place[name], f"crates.txt: {name} stands before {low}, its own library")
    seen.same(f"{where}, their order", [name for name in told if name in crates],
              [name for name in crates if name in told])
    drawn = [name for line in reversed(FENCE.search(page)[0].splitlines())
             for name in reversed(re.findall(r"\bilk_\w+|\birv\b", line))]
    seen.same("architecture.md, the picture", drawn, [it for it in crates if not it.endswith("_tests")])
    proved = [name for cells in rows(read(root / "docs/assurance/proved.md"), "crate", "what is proved")
              for name in spans(cells[0])]
    seen.same("proved.md, the crates", sorted(proved),
              sorted(name for name in crates if not name.endswith("_tests")))


def see_definitions(repository, seen):
    """The list of definitions and the reading plan are as generated."""
    checked = subprocess.run([repository.root / "tools/definitions", "--check"], stdout=subprocess.PIPE,
                             stderr=subprocess.PIPE)
    said = checked.stdout.decode().splitlines()
    seen.ask(checked.returncode == 0, f"tools/definitions --check: {checked.stderr.decode().strip()}{said[:3]}")


def see_left(repository, seen):
    """Each definition that `run`'s clauses reach without a formula has a section of the assessor's
    page with its purpose, not the last one."""
    printed = subprocess.run([repository.root / "tools/definitions", "--left"], stdout=subprocess.PIPE,
                             stderr=subprocess.PIPE)
    seen.ask(printed.returncode == 0, f"tools/definitions --left: {printed.stderr.decode().strip()}")
    left = printed.stdout.decode().splitlines()
    seen.ask(not left, f"definition-list.md, the last section: who relies on an answer reads {', '.join(left)}")


def search_of(root):
    """Returns the crates of crates.txt's search layer."""
    text = read(root / "crates.txt")
    layer = re.search(r"^# layer \d+, search\b.*\n((?:(?!#).*\n)*)", text, re.M)
    return set(re.findall(r"^(\w+):", layer[1], re.M)) if layer else set()


def below(crates, name):
    """Returns a crate's dependencies in this repository."""
    found, left = set(), [name]
    while left:
        for low in crates.get(left.pop(), []):
            if low in crates and low not in found:
                found.add(low)
                left.append(low)
    return found


def see_search(repository, seen):
    """The crates for safety without search depend on no crate of the search."""
    crates, search = crates_of(repository.root), search_of(repository.root)
    seen.ask(len(search) > 1, "crates.txt: no layer is called search")
    for name in APART_FROM_SEARCH:
        seen.ask(name in crates, f"crates.txt: there is no crate {name}")
        low = sorted(below(crates, name) & search)
        seen.ask(not low, f"crates.txt: {name} stands on the search: {', '.join(low)}")


class Names:
    """The repository's declarations, and the words of its formats."""

    HEAD = re.compile(r"^ *(?:unfoldable |abbrev |infixr? \d+ )*pub (?!mod |use )"
                      r"(?:record |syntax |data )?(◌?[^\s(:{]+)", re.M)
    # a record field or a constructor
    PART = re.compile(r"^ +(?:pub )?([\w-]+) :", re.M)
    LEMMA = re.compile(r"^ *(?:abbrev |unfoldable )?(?:pub )?([\w-]+) :", re.M)
    # calls, types and constants; fields and variants alone on a line; clause labels
    CODE = re.compile(r"\b(?:fn|struct|enum|trait|const|static|type|mod|impl|ghost) (?:<.*?> ?)?(\w+)"
                      r"|^ +(?:pub(?:\(crate\))? )?(\w+)(?: \{|\(.*\))?[:,]"
                      r"|^ +(?:ensures|requires|lends) (\w+) \{|^ +(\w+) \{$", re.M)
    IMPORT = re.compile(r"use (?:Rattle\.)?(?:std|core|alloc|clap|serde_json|indexmap)\b(.*)")
    STRING = re.compile(r'"((?:[^"\\\n]|\\.)*)"')
    REMARK = re.compile(r'""".*?"""|^ *(?://|--|#)[^\n]*$', re.M | re.S)

    def __init__(self, root):
        self.root = root
        self.crates = crates_of(root)
        self.ported = {name for edges in self.crates.values() for name in edges}
        self.by_file, self.by_crate = {}, {}
        self.others, self.words = set(), set()
        # not what a proof beside this test writes and removes
        for path in sorted(path for kind in ("src", "specs", "proofs") for path in root.glob(f"crates/*/{kind}/**/*")):
            if path.suffix in (".antt", ".rt"):
                self.enter(path, path.relative_to(root / "crates").parts[1])
        for path in (*(root / "tests/cases").iterdir(), *(root / "examples").glob("*.json")):
            if path.is_file():
                self.words |= self.words_of(read(path))
        for path in (*(root / "tools").rglob("*"), *(root / "tests").rglob("*"), root / "irv"):
            if path.is_file() and path.suffix in ("", ".py", ".bash", ".js", ".txt") and path.name != "docs.py":
                self.words |= self.words_of_script(read(path))
                self.words.add(path.stem.removesuffix("_tests"))
            elif path.is_dir():
                self.words.add(path.name)
        self.others.update(re.findall(r"^(?:class|def) (\w+)", read(root / "tests/support/harness.py"), re.M))

    def is_test(self, word):
        """Returns whether a word is a test's name: its module and method."""
        module, _, method = word.rpartition(".")
        file = self.root / "tests" / (module.replace(".", "/") + "_tests.py")
        file = file if file.is_file() else self.root / "tests" / (module.replace(".", "/") + ".py")
        return file.is_file() and re.search(rf"(?:check|test)_{method}\b", read(file)) is not None

    def enter(self, path, kind):
        """Enters the declarations of a crate's file."""
        text = read(path)
        names, others = self.declared_by(kind, text)
        self.by_file[path] = names
        self.others |= others
        crate = path.relative_to(self.root / "crates").parts[0]
        self.by_crate.setdefault((crate, kind), set()).update(names)
        if kind != "proofs":
            self.words |= self.words_of(text)

    # the self-check reads each file often, mostly unchanged: what depends on the text alone is kept

    @classmethod
    @functools.cache
    def declared_by(cls, kind, text):
        """Returns the names that a crate's file declares, and its fields and imported names."""
        others = {word for listed in cls.IMPORT.findall(text) for word in re.findall(r"[\w◌>=]+", listed)}
        if kind == "src":
            return {name for found in cls.CODE.findall(text) for name in found if name}, others
        if kind == "specs":
            return set(cls.HEAD.findall(text)), others | set(cls.PART.findall(text))
        return set(cls.LEMMA.findall(text)), others

    @classmethod
    @functools.cache
    def words_of(cls, text):
        """Returns the words of a file's strings; in a file of cases, also all keys."""
        words = {word for found in cls.STRING.findall(cls.REMARK.sub("", text)) for word in re.findall(r"[\w-]+", found)}
        return words.union(re.findall(r"^([a-z]+)(?: [\w.-]+)*:", text, re.M))

    @classmethod
    @functools.cache
    def words_of_script(cls, text):
        """Returns also a script's options and calls."""
        return cls.words_of(text).union(re.findall(r"--([a-z][a-z-]*)", text),
                                        re.findall(r"^(\w+)\(\) \{", text, re.M))

    @functools.cached_property
    def declared(self):
        """Returns all declarations."""
        return set().union(*self.by_file.values())

    def is_known(self, word):
        """Returns whether a word in backquotes has a meaning: it is declared in a crate, imported
        from the standard library, or in a string of code or tests. Signs, numbers and placeholders
        in capitals also have one."""
        if word.startswith("ilk_"):
            return word in self.crates
        if word in COMPARED or re.fullmatch(r"[a-z_]+(\.[a-z_]+)+", word) and self.is_test(word):
            return True
        if re.fullmatch(r"\w+\.\.", word):
            return any(name.startswith(word[:-2]) for name in self.declared)
        if "::" in word:
            first, second = word.split("::")
            return any(first in names and second in names
                       for (_, kind), names in self.by_crate.items() if kind == "src")
        return (word in self.declared or word in self.others or word in self.words
                or word in self.ported or word in FOREIGN or is_sign(word))


def is_sign(word):
    """Returns whether it is a sign, a number, a checksum, a letter, or a placeholder in capitals."""
    return not re.search(r"[^\W\d_]{2}", word) or re.fullmatch(r"[A-Z]+|[0-9a-f]{64}", word) is not None


class Places:
    """The paths that a line of a document names. One without a crate or directory is in the last
    one named."""

    def __init__(self, root, document):
        self.root = root
        self.bases = [root, document.parent, root / "crates"]
        self.last = []

    def find(self, named):
        """Returns whether such a file or directory exists."""
        return bool(self.all(named))

    def all(self, named):
        """Returns the files and directories of that name. `..` in a name, and `*`, match anything."""
        pattern = re.sub(r"(?<=[\w-])\.\.|(?<=/)\.\.(?=[\w])", "*", named).rstrip("/")
        if pattern.startswith("/"):
            return []
        for base in (*self.last, *self.bases):
            found = sorted(base.glob(pattern))
            if found:
                self.enter(found[0])
                return found
        # in no single crate, but in several
        found = [] if self.last else list(self.root.glob(f"crates/*/{pattern}"))
        return found if len(found) > 1 else []

    def enter(self, found):
        """Makes its directory and crate the base of the next paths."""
        self.last = [found if found.is_dir() else found.parent]
        parts = found.relative_to(self.root).parts
        if parts[0] == "crates" and len(parts) > 1:
            crate = self.root / "crates" / parts[1]
            self.last += [crate, crate / "src", crate / "specs", crate / "proofs"]


def documents(root):
    """Returns the documents."""
    return [path for pattern in DOCUMENTS for path in sorted(root.glob(pattern))]


def see_links(repository, seen):
    """Each link leads somewhere, and its named targets exist."""
    root, names = repository.root, repository.names
    for document in documents(root):
        text = with_targets(FENCE.sub("", read(document)))
        keys = [key.lower() for key, _ in TARGET.findall(text)]
        seen.ask(len(set(keys)) == len(keys), f"{document.name}: a key of links has two targets")
        for key in REFERENCE.findall(text):
            seen.ask(False, f"{document.name}: the link [{key}] has no target")
        for label, target, heading in LINK.findall(text):
            if target.startswith("http"):
                continue
            where = f"{document.name}, the link to {target}"
            path = (document.parent / target.partition("#")[0]).resolve()
            seen.ask(path.exists(), f"{where}: it isn't there")
            if path in names.by_file:
                for name in spans(label):
                    seen.ask(name in names.by_file[path], f"{where}: {name} isn't declared there")
            if heading and path.exists():
                seen.ask(re.search(rf"^#+ {re.escape(heading)}$", read(path), re.M),
                         f"{where}: it has no heading {heading!r}")


def is_path(span):
    """Returns whether it names a file or a directory."""
    return re.fullmatch(r"[\w.*/-]+", span) and ("/" in span or FILE_NAME.fullmatch(span))


def see_span(names, places, where, span, seen):
    """A text in backquotes has a meaning."""
    if span in MADE:
        return
    if is_path(span):
        seen.ask(places.find(span), f"{where}: `{span}` isn't there")
    elif re.fullmatch(r"[\w:.-]+|◌\S+◌", span):
        seen.ask(names.is_known(span.removeprefix("--")), f"{where}: `{span}` is declared nowhere")
        if span in names.crates:
            places.enter(places.root / "crates" / span)
    else:
        # several words: files of the repository, options, and words that can only be names
        for word in re.findall(r"[\w./:-]+", span):
            word = word.rstrip(".:")
            if "/" in word and (places.root / word.split("/")[0]).is_dir():
                seen.ask(places.find(word), f"{where}: `{word}` isn't there")
            elif word.startswith("--") and word != "--":
                seen.ask(names.is_known(word[2:]), f"{where}: the option {word} is nowhere")
            elif re.fullmatch(r"[a-z]+(?:_[a-z0-9]+)+|[A-Z][a-z]+(?:[A-Z][a-z]+)+", word):
                seen.ask(names.is_known(word), f"{where}: `{word}` is declared nowhere")


def see_spans(repository, seen):
    """Each path and name in backquotes exists, and each path in code blocks."""
    root, names = repository.root, repository.names
    for document in documents(root):
        text = read(document)
        for block in FENCE.findall(text):
            places = Places(root, document)
            for word in re.findall(r"[\w.-]+/[\w./-]+", block):
                if (root / word.split("/")[0]).is_dir() and word not in MADE:
                    seen.ask(places.find(word), f"{document.relative_to(root)}: {word} isn't there")
        for line in FENCE.sub("", text).splitlines():
            places = Places(root, document)
            for span in spans(line):
                see_span(names, places, document.relative_to(root), span, seen)


def see_contracts(repository, seen):
    """Each call in a row of docs/assurance/proved.md is in the code of one of its crates."""
    root, names = repository.root, repository.names
    for cells in rows(read(root / "docs/assurance/proved.md"), "crate", "what is proved"):
        declared = set().union(*(names.by_crate.get((crate, "src"), set()) for crate in spans(cells[0])))
        for span in spans(cells[-1]):
            for part in span.split("::"):
                seen.ask(part in declared, f"proved.md, {cells[0]}: {span} isn't in its code")


class Tables:
    """The program's tables of commands, options and statuses, from its definitions."""

    def __init__(self, root):
        self.root = root
        folder = self.file_of("options : List OptionSpec").parent
        self.text = "\n".join(read(path) for path in sorted(folder.glob("*.antt")))
        self.limits = dict(re.findall(r"pub const (\w+): \w+ = (\d+);",
                                      read(folder.parent / "src/limits.rt")))
        self.options = {it: self.record(it) for it in self.listed("options")}
        self.commands = {it: self.record(it) for it in self.listed("commands")}
        self.statuses = re.findall(r"^code (\w+) = (\d+)$", read(self.file_of("code : Status")), re.M)
        self.complaints = dict(re.findall(r'^complaint (\w+) = Some \(codes "([^"]*)"\)$',
                                          read(self.file_of("complaint : Status")), re.M))

    def file_of(self, head):
        """Returns the file that has a definition with this head."""
        return next(path for path in sorted(self.root.glob("crates/*/specs/*.antt"))
                    if f"abbrev pub {head}" in read(path))

    def listed(self, name):
        """Returns the items of a list."""
        body = re.search(rf"^{name} =((?:.|\n +)*)", self.text, re.M)[1]
        return [item for item in re.split(r"\s*∷\s*", body.strip()) if item != "[]"]

    def record(self, name):
        """Returns the fields of a record."""
        body = re.search(rf"^{name} = record \{{((?:.|\n)*?)\}}$", self.text, re.M)[1]
        return {field: " ".join(value.split()) for field, value in
                re.findall(r"(\w+) = ((?:[^;]|\n)*?)(?:;|$|\s*\Z)", body.strip())}

    def word(self, value):
        """Returns a term's text: a value's word or a number's digits."""
        name, _, rest = value.partition(" ")
        if name == "codes":
            return rest.strip('"')
        if name == "decimal":
            return self.limits[rest]
        return re.search(rf'^{name} {rest} = codes "([^"]*)"', self.text, re.M)[1]

    def name(self, record):
        """Returns the name of an option or command."""
        return self.word(record["name"])

    def values(self, option):
        """Returns an option's words, or its least and greatest number, or `None` for any text."""
        words = re.fullmatch(r"one_among \(map (\w+) (\w+)\)", option["values"])
        if words:
            return [self.word(f"{words[1]} {it}") for it in self.listed(words[2])]
        numbers = re.fullmatch(r"number_between (\w+) (\w+)", option["values"])
        return tuple(self.limits.get(it, it) for it in numbers.groups()) if numbers else None

    def default(self, option):
        """Returns an option's default, or `None` if it has none."""
        value = re.fullmatch(r"Some \((.*)\)", option["default"])
        return self.word(value[1]) if value else None

    def options_of(self, command):
        """Returns a command's options, by their names in the definitions."""
        return [it for it in re.split(r"\s*∷\s*", command["options"]) if it != "[]"]

    def takers(self, option):
        """Returns the commands that take an option."""
        return [self.name(it) for it in self.commands.values() if option in self.options_of(it)]


def told_values(cell):
    """Returns the values in a cell: words, or the least and greatest number."""
    numbers = re.match(r"a whole number, (\d+) to (\d+)", cell)
    return numbers.groups() if numbers else spans(cell) or None


def see_commands(repository, seen):
    """The commands, options and statuses are those of the program."""
    root = repository.root
    tables, text = Tables(root), read(root / "docs/reference/commands.md")
    where = "commands.md"
    first, *told = rows(text, "word", "values", "default", "commands")
    seen.same(f"{where}, the commands", spans(first[1]),
              [tables.name(it) for it in tables.commands.values()])
    seen.same(f"{where}, the options", [spans(cells[0])[0] for cells in told],
              [f"--{tables.name(it)}" for it in tables.options.values()])
    by_word = {spans(cells[0])[0]: cells for cells in told}
    for key, option in tables.options.items():
        word = f"--{tables.name(option)}"
        _, values, default, commands, *_ = by_word.get(word, [""] * 5)
        wanted = tables.values(option)
        seen.same(f"{where}, values of {word}", told_values(values) if wanted else None, wanted)
        seen.same(f"{where}, default of {word}", None if default.startswith("none")
                  else default.strip("`"), tables.default(option))
        seen.same(f"{where}, commands with {word}", commands.split(", "), tables.takers(key))
    for command in tables.commands.values():
        name = tables.name(command)
        line = re.search(rf"^\./irv {name} .*", text, re.M)
        seen.same(f"{where}, how {name} is called", re.findall(r"--\w+", line[0] if line else ""),
                  [f"--{tables.name(tables.options[it])}" for it in tables.options_of(command)])
    table = rows(text, "status", "name", "standard error")
    seen.same(f"{where}, the statuses", [(cells[1], cells[0]) for cells in table], tables.statuses)
    for cells in table:
        said = tables.complaints.get(cells[1])
        seen.same(f"{where}, standard error of {cells[1]}", cells[2], f"`{said}`" if said else "nothing")


def see_lists(repository, seen):
    """Each list of files that a change touches has every file that names its witness."""
    root, where = repository.root, "CONTRIBUTING.md, files that a change touches"
    for heading, witness, count, missing in change_lists.left_out(root, lambda: Places(root, root / change_lists.MAP)):
        seen.ask(missing is not None, f"{where}: there is no list {heading!r}")
        seen.ask(count > 1, f"{where}, {heading}: nothing names {witness}")
        for name in missing or []:
            seen.ask(False, f"{where}, {heading}: {name} is left out, which names {witness}")


def see_denied(repository, seen):
    """No public contract reaches a definition that denies it in its file."""
    root = repository.root
    count, files = reached_definitions.denied(root)
    seen.ask(count > 400, f"crates: only {count} public calls are found")
    seen.ask(len(files) > 40, f"crates: only {len(files)} files deny that public contracts cite them")
    for path, how in files.items():
        call, name = how or ("", "")
        seen.ask(how is None, f"{path.relative_to(root)} says that no public contract cites it, and {call} "
                              f"reaches {name}")


def tracked(root):
    """Returns the repository's files by path, without build products."""
    listed = subprocess.run(["git", "-C", TOP, "ls-files"], capture_output=True, text=True).stdout.split("\n")
    return [name for name in listed if name and (root / name).is_file()]


@functools.cache
def old_names_in(text):
    """Returns the first old name of each kind in a text, or `None`."""
    found = {what: re.search(pattern, text) for what, pattern in OLD_NAMES.items()}
    return {what: name and name[0] for what, name in found.items()}


def see_old_names(repository, seen):
    """No text or file name has an old name."""
    for name in tracked(repository.root):
        if name in KEEPS_OLD_NAMES:
            continue
        try:
            text = f"{name}\n{read(repository.root / name)}"
        except UnicodeDecodeError:
            text = name
        for what, found in old_names_in(text).items():
            seen.ask(not found, f"{name}: {found!r} is the old name of {what}")


CHECKS = (see_map, see_search, see_definitions, see_left, see_links, see_spans, see_contracts, see_commands,
          see_lists, see_denied, see_old_names)


def see_all(root, checks=CHECKS):
    """Returns the result of these checks."""
    repository, seen = Repository(root), Seen()
    for check in checks:
        check(repository, seen)
    return seen


# Changes that make a document wrong: the refusing check, the file, the old and new text, and a part
# of the fault.
CHANGES = {
    "a crate that the map leaves out": (
        see_map, "docs/dev/architecture.md", r"^\| `ilk_replay` \|.*\n", "", "ilk_replay has no row"),
    "a crate that stands on a later one": (
        see_map, "crates.txt", r"^(ilk_ints:.*)\n((?:.*\n)*?)(ilk_forms:.*\n)", r"\3\1\n\2",
        "crates.txt: ilk_forms stands before ilk_ints"),
    "two crates that the map has in another order": (
        see_map, "docs/dev/architecture.md", r"^(\| `ilk_motion` \|.*\n)(\| `ilk_routes` \|.*\n)", r"\2\1",
        "the crates, their order"),
    "a crate of the search below the laws": (
        see_search, "crates.txt", r"^(ilk_forever:.*)$", r"\1 ilk_induct",
        "ilk_forever stands on the search: ilk_arena"),
    "a definition that fits no section": (
        see_left, "tools/irvtools/docs/definitions.py", r'^ +\("ilk_words\.specs\.Plan", "plan_of"\)\], None\),$',
        "                          ], None),", "Plan.antt: plan_of"),
    "a stale count": (
        see_definitions, "docs/assurance/definition-list.md", r"^(3\. .*: )\d+ lines", r"\g<1>1 lines",
        "tools/definitions --check"),
    "a dead link": (
        see_links, "docs/reference/model.md", r" \.\./\.\./crates/ilk_model/specs/Run\.antt$",
        " ../../crates/ilk_model/specs/Runs.antt", "Runs.antt: it isn't there"),
    "a key with two targets": (
        see_links, "docs/reference/model.md", r"^\[NR\]: ", "[cr]: ", "a key of links has two targets"),
    "a link without a target": (
        see_links, "docs/reference/model.md", r"^\[\w+\]: \.\./\.\./crates/ilk_model/specs/Run\.antt\n", "",
        "has no target"),
    "a file that isn't there": (
        see_spans, "CONTRIBUTING.md", r"`ilk_model/src/event\.rt`", "`ilk_model/src/events.rt`",
        "`ilk_model/src/events.rt` isn't there"),
    "a definition renamed": (
        see_links, "crates/ilk_plant/specs/NetworkRules.antt", r"\bis_isolated_linear_section\b", "is_linear_without_neighbours",
        "NetworkRules.antt: is_isolated_linear_section isn't declared there"),
    "a definition renamed that no link leads to": (
        see_spans, "crates/ilk_answers/specs/Strict.antt", r"\bSaysSafeAtOneOrSpent\b", "SaysSafeOrSpent",
        "`SaysSafeAtOneOrSpent` is declared nowhere"),
    "a call renamed": (
        see_contracts, "crates/ilk_engine/src/deciding.rt", r"\bpub fn decide\b", "pub fn decides",
        "`ilk_engine`: decide isn't in its code"),
    "an option left out": (
        see_commands, "docs/reference/commands.md", r"^\| `--cert` \|.*\n", "", "commands.md, the options"),
    "a limit that isn't so": (
        see_commands, "crates/ilk_words/src/limits.rt", r"MAX_DEPTH: u64 = \d+", "MAX_DEPTH: u64 = 15",
        "values of --depth"),
    "a file that a list leaves out": (
        see_lists, "CONTRIBUTING.md", r"`pairs\.rt`, ", "", "pairs.rt is left out, which names the rule C8"),
    "a document that a list leaves out": (
        see_lists, "CONTRIBUTING.md", r"`docs/how-it-works\.md`, ", "", "how-it-works.md is left out, which names the rule C8"),
    "a folder that a list leaves out": (
        see_lists, "CONTRIBUTING.md", r", such as `ilk_drive/`", "",
        "ilk_drive/src/automatic.rt is left out, which names the command drive"),
    "a file that comes to name an event": (
        see_lists, "tools/irvtools/trackplan/rows.py", r"\A", "CREWS = ['cancel']\n",
        "rows.py is left out, which names the event cancel"),
    "a bare number for the depth": (
        see_lists, "crates/ilk_forms/src/lib.rt", r"\A", "// a run has at most 16 events\n",
        "ilk_forms/src/lib.rt is left out, which names the depth"),
    "a list under another heading": (
        see_lists, "CONTRIBUTING.md", r"^### A family of the invariant$", "### A family",
        "there is no list 'A family of the invariant'"),
    "a file that denies what reaches it": (
        see_denied, "crates/ilk_solver/specs/Answered.antt", r"\A.*",
        "-- Only private contracts and proofs need this file: what a search promises.",
        "ilk_solver/specs/Answered.antt says that no public contract cites it, and ilk_"),
    "a private call that is handed on": (
        see_denied, "crates/ilk_solver/src/lib.rt", r"^pub use solver::Solver;$",
        r"\g<0>\npub use search::Search;", "ilk_solver/specs/Learned.antt says that no public contract"),
    "an old name": (
        see_old_names, "tools/README.md", r"\A", "`tools/hunt` searches.\n", "'tools/hunt' is the old name of a tool"),
    "a status renamed": (
        see_commands, "crates/*/specs/Status.antt", r"^code Spent", "code UsedUp", "the statuses"),
}


def self_check():
    """Yields the faults of this check: changes that are not refused for their own reason."""
    seen = Seen()
    with tempfile.TemporaryDirectory(prefix="irv-docs-") as folder:
        copy = Path(folder) / "irv"
        shutil.copytree(TOP, copy, ignore=shutil.ignore_patterns("out", ".git", "__pycache__"))
        for name, (check, place, pattern, replacement, reason) in CHANGES.items():
            path = next(copy.glob(place))
            text = read(path)
            changed = re.sub(pattern, replacement, text, flags=re.M)
            path.write_text(changed, encoding="utf-8")
            faults = see_all(copy, [check]).faults
            path.write_text(text, encoding="utf-8")
            seen.ask(changed != text, f"{name}: there is nothing to change")
            seen.ask(any(reason in fault for fault in faults), f"{name} isn't refused: {faults}")
        unchanged = {check: see_all(copy, [check]).faults for check in {check for check, *_ in CHANGES.values()}}
        for name, (check, *_, reason) in CHANGES.items():
            seen.ask(not any(reason in fault for fault in unchanged[check]), f"{name} is refused where there is none")
    return seen


class DocumentTests(Test):
    """The documents compared with the sources."""

    def test_self_check(self):
        """Each planted change is refused for its own reason."""
        seen = self_check()
        self.see(seen.faults, seen.passed)

    def test_documents(self):
        """The documents agree with the sources."""
        seen = see_all(TOP)
        self.see(seen.faults, seen.passed)
