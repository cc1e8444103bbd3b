"""Measures how the repository's English reads, and lists words that the glossary replaces.

Kinds of text: documents (*.md), comments of Rattle (.rt: // and ///; .antt: --), docstrings and
comments of Python and shell. A document's tables, headings, code blocks and code spans do not
count.
"""

from __future__ import annotations

import ast
import io
import re
import subprocess
import sys
import tokenize
from dataclasses import dataclass
from pathlib import Path

from irvtools.arguments import Parser, whole_number
from irvtools.paths import TOP

# a pattern that the glossary replaces, and the standard term
REPLACED = [
    (r"\bfolders?\b", "directory"),
    (r"\bwords? of the command line\b|\bwords of (a|the) call\b", "arguments"),
    (r"\bvalues apart by commas\b", "CSV"),
    (r"\bwants? of memory\b|\bwant of memory\b", "out of memory"),
    (r"\bremarks?\b", "comment"),
    (r"\bstands? on\b|\bstand(s|ing)? (twice|there|beside|below|above)\b", "depends on, is in, is duplicated"),
    (r"\bhand(s|ed) on\b|\bto hand on\b", "re-exports, passes on"),
    (r"(?<!measured )\bfloors?\b(?! of the (quotient|logarithm))", "layer"),
    (r"\bby chance\b|\bat random by chance\b", "random"),
    (r"\b(made|worked out|worked|written|spelled) by hand\b", "hand-written, derived by hand"),
    (r"\bseconds of a processor\b|\bprocessor minutes\b", "CPU seconds, CPU minutes"),
    (r"\bon the clock\b", "wall-clock"),
    (r"\bwhoever\b|(?:^|[.;:] )who (wrote|made|has|keeps|would|wants|rests)\b", "if you ..; regardless of origin"),
    (r"\bwithout a screen\b", "headless"),
    (r"\bfor ever\b|\bof whatever length\b", "for runs of any length"),
    (r"\bpremises?\b", "assumption"),
    (r"\bconditions? of use\b", "application condition (SRAC)"),
    (r"\bwrong bod(y|ies)\b", "mutant"),
    (r"\bwalls?\b(?![- ](clock|time))", "line-length or file-length limit"),
    (r"\btrials?\b(?! and error)", "test, experiment"),
    (r"\btwins?\b|\bsecond reading\b", "independent implementation, oracle"),
    (r"\bhunt(s|ed|ing)?\b", "search, random search"),
    (r"(?<!\ba )(?<!whole )\blots?\b(?! of\b)", "batch"),
    (r"\bbatter(y|ies)\b", "extra test suite"),
    (r"\bmade stations?\b", "generated stations"),
    (r"\bgiven back\b|\bgives? back\b", "released"),
    (r"\bso many\b(?! that\b)|\bso much (more|of)\b", "N"),
    (r"\bthe one or the other\b|\bno more does\b|\bno more do\b", "either; nor"),
    (r"\bisn't there\b|\baren't there\b", "does not exist, is missing"),
    (r"(?<!there )\bis no (fault|file|folder|answer|certificate|run|proof|plant)\b", "is not a .."),
    (r"\bgates?\b", "CI"),
]
ANY_REPLACED = re.compile("|".join(f"(?:{pattern})" for pattern, _ in REPLACED), re.I)
# a listed word in its own sense, and the files in which it does not count
FIELD = [("gate", re.compile(r"^crates/ilk_(cnf|ints|copy|forms|step|unroll|behave|conditions|props|invs|queries)/")),
         ("premise", re.compile(r"^crates/.*\.(rt|antt)$"))]
FRONTED = re.compile(r"(?:\*\*)?(?:And |But |So )?(?:Who|Whoever|What|Whatever|Whether|Of(?! course)|Where|Which|How"
                     r"|That(?= (?:the|a|an|it|its|they|no|each|every|these|what|nothing|CODE)\b))\b")
WORD = re.compile(r"[A-Za-z][A-Za-z'’-]*")
MOST_CELL = 25          # words in a cell of a table
MOST_WORDS = 30         # words in the longest normal sentence
LEFT_OUT = re.compile(r"(^|/)(glossary|style-guide|traceability)\.md$", re.I)
KINDS = "documents", "comments .rt", "comments .antt", "comments .py, shell"


@dataclass
class Text:
    """A measured text: file, kind, prose, and long table cells."""

    file: str
    kind: str
    prose: str
    long_cells: int = 0


@dataclass
class Figures:
    """Figures of texts. Shares are fractions of the sentences; `where`, `if_` and `you` count in
    1,000 words."""

    words: int
    sentences: int
    long: int
    fronted: int
    where: float
    if_: float
    you: float
    replaced: int

    @property
    def mean(self) -> float:
        """Returns the mean words in a sentence."""
        return self.words / max(self.sentences, 1)

    def row(self, name: str) -> str:
        """Returns the printed row."""
        count = max(self.sentences, 1)
        return (f"{name:34} {self.words:7d} {self.mean:6.1f} {100 * self.long / count:5.1f}% "
                f"{100 * self.fronted / count:6.1f}% {self.where:6.1f} {self.if_:6.1f} {self.you:6.1f} "
                f"{self.replaced:6d}")


def plain(text: str) -> str:
    """Returns a text without links and code."""
    return re.sub(r"`[^`]*`", "CODE", re.sub(r"!?\[([^\]]*)\]\([^)]*\)", r"\1", text))


def prose_of_document(text: str) -> str:
    """Returns the prose of a document."""
    text = re.sub(r"```.*?```", "", text, flags=re.S)
    text = re.sub(r"</?[A-Za-z][^>\n]*>", " ", re.sub(r"<!--.*?-->", "", text, flags=re.S))
    kept, in_list = [], False
    for line in text.split("\n"):
        if line.strip() and not line.startswith(" "):
            in_list = bool(re.match(r"([-*]|\d+\.)\s", line))
        if line.lstrip().startswith("|") or re.match(r"^\s*(#|=+$|-+$|\[!|!\[|\$ )", line):
            kept.append("")
        elif line.startswith("    ") and not in_list and not line.strip().startswith(("*", "-")):
            kept.append("")
        else:
            kept += [""] if re.match(r"^\s*([-*]|\d+\.)\s", line) else []
            kept.append(re.sub(r"^\s*([-*]|\d+\.)\s+", "", line))
    return "\n".join(kept)


def long_cells(text: str) -> int:
    """Returns a document's number of overlong table cells."""
    text = re.sub(r"```.*?```", "", text, flags=re.S)
    cells = [cell for line in text.split("\n") if line.lstrip().startswith("|")
             for cell in re.split(r"(?<!\\)\|", plain(line))]
    return sum(len(WORD.findall(cell)) > MOST_CELL for cell in cells)


def prose_of_python(text: str) -> str:
    """Returns docstrings and comments; other long strings, such as templates, do not count."""
    docs = [ast.get_docstring(node) or "" for node in ast.walk(ast.parse(text))
            if isinstance(node, (ast.Module, ast.FunctionDef, ast.AsyncFunctionDef, ast.ClassDef))]
    comments = {token.start[0]: token.string.lstrip("# ")
                for token in tokenize.generate_tokens(io.StringIO(text).readline)
                if token.type == tokenize.COMMENT and not token.string.startswith("#!")}
    lines = []
    for number in sorted(comments):
        lines += ([""] if number - 1 not in comments else []) + [comments[number]]
    return "\n\n".join(docs) + "\n\n" + "\n".join(lines)


def prose_of_comments(file: str, text: str) -> str:
    """Returns the comments of a source file."""
    marks = {".rt": r"\s*//[/!]?\s?(.*)", ".antt": r"\s*--\s?(.*)"}
    mark = marks.get(Path(file).suffix, r"\s*#(?!!)\s?(.*)")
    lines = [match[1] if (match := re.match(mark, line)) else "" for line in text.split("\n")]
    if Path(file).suffix in marks:
        return re.sub(r"```.*?```", "", "\n".join(lines), flags=re.S)
    if file.endswith(".py") or re.match(r"#!.*python", text):
        try:
            return prose_of_python(text)
        except (SyntaxError, tokenize.TokenError):
            pass
    return "\n\n".join(re.findall(r'"""(.*?)"""', text, flags=re.S)) + "\n\n" + "\n".join(lines)


def text_of(file: str, text: str) -> Text | None:
    """Returns a file's measured text, or `None` if its kind is not measured."""
    if file.endswith(".md"):
        return Text(file, "documents", prose_of_document(text), long_cells(text))
    if file.endswith((".rt", ".antt")) and file.startswith("crates/"):
        return Text(file, "comments ." + file.rsplit(".", 1)[1], prose_of_comments(file, text))
    if file.endswith((".py", ".bash", ".sh")) or text.startswith("#!"):
        return Text(file, "comments .py, shell", prose_of_comments(file, text))
    return None


def texts_of(root: Path, ending: str = "") -> list[Text]:
    """Returns the texts of a directory's git-tracked files whose names have this ending."""
    listed = subprocess.run(["git", "-C", root, "ls-files"], capture_output=True, text=True).stdout
    found = []
    for file in filter(None, listed.split("\n")):
        path = root / file
        if (not file.endswith(ending) or LEFT_OUT.search(file) or path.is_symlink()
                or not path.is_file()):
            continue
        try:
            found.append(text_of(file, path.read_text(encoding="utf-8")))
        except UnicodeDecodeError:
            pass
    return [text for text in found if text]


def sentences(text: str) -> list[tuple[str, int]]:
    """Returns a plain text's sentences of three or more words, with word counts."""
    found = []
    for paragraph in re.split(r"\n\s*\n", text):
        for sentence in re.split(r"(?<=[.!?])[)\"”*]*\s+(?=[A-Z0-9\"“(*])", " ".join(paragraph.split())):
            count = len(WORD.findall(sentence))
            if count >= 3:
                found.append((sentence, count))
    return found


def is_fronted(sentence: str) -> bool:
    """Returns whether a sentence opens with a clause in place of its subject. Questions do not count."""
    return bool(FRONTED.match(sentence)) and not sentence.rstrip("*").endswith("?")


def replaced_in(file: str, sentence: str) -> int:
    """Returns how many words of a sentence the glossary replaces."""
    if not ANY_REPLACED.search(sentence):
        return 0
    return sum(len(re.findall(pattern, sentence, flags=re.I)) for pattern, _ in REPLACED
               if not any(word in pattern and files.search(file) for word, files in FIELD))


def figures(texts: list[Text]) -> Figures:
    """Measures texts together."""
    found = [(text.file, *each) for text in texts for each in sentences(plain(text.prose))]
    words = sum(count for _, _, count in found) or 1
    whole = " ".join(sentence for _, sentence, _ in found)
    per = [1000 * len(re.findall(rf"\b{word}\b", whole, flags=re.I)) / words for word in ("where", "if", "you(?:r|rs)?")]
    fronted = sum(is_fronted(sentence) for _, sentence, _ in found)
    return Figures(words, len(found), sum(count > MOST_WORDS for _, _, count in found), fronted, *per,
                   sum(replaced_in(file, sentence) for file, sentence, _ in found))


def print_figures(texts: list[Text]) -> None:
    """Prints a row for each document and kind."""
    print(f"{'':34} {'words':>7} {'mean':>6} {'>30':>6} {'front':>7} {'where':>6} {'if':>6} {'you':>6} {'repl.':>6}")
    documents = [text for text in texts if text.kind == "documents"]
    for text in documents:
        print(figures([text]).row(text.file))
    print(f"cells of tables with more than {MOST_CELL} words: {sum(text.long_cells for text in documents)}",
          *[f"{text.file} {text.long_cells}" for text in documents if text.long_cells])
    for kind in KINDS:
        print(figures([text for text in texts if text.kind == kind]).row(f"ALL {kind}"))


def print_longest(texts: list[Text], count: int) -> None:
    """Prints the longest sentences."""
    found = [(words, sentence, text.kind) for text in texts for sentence, words in sentences(plain(text.prose))]
    for words, sentence, kind in sorted(found, reverse=True)[:count]:
        print(f"{words} words ({kind}): {sentence[:300]}")


def print_replaced(texts: list[Text], count: int) -> None:
    """Prints the places of replaced words."""
    for pattern, term in REPLACED:
        places = [f"    {text.file}: {line.strip()[:120]}" for text in texts for line in plain(text.prose).split("\n")
                  if re.search(pattern, line, flags=re.I)]
        if places:
            print(f"{len(places)} x {pattern} -> {term}", *places[:count], sep="\n")


def main(words: list[str]) -> int:
    """Measures a directory's English; returns the exit status."""
    line = Parser("tools/prose", "Measures how the English of the repository reads: a row for each document and for "
                  "each kind of comment.", 2, "tools/prose [DIRECTORY] [OPTIONS]")
    line.add_argument("root", nargs="?", type=Path, default=TOP, metavar="DIRECTORY",
                      help="a checkout (this one)")
    line.once("--words", "also print N places of each word that the glossary replaces", metavar="N",
              type=whole_number(1, 10000))
    line.once("--long", "also print the N longest sentences", metavar="N", type=whole_number(1, 10000))
    given = line.parse_args(words)
    texts = texts_of(given.root)
    try:
        print_figures(texts)
        if given.long:
            print_longest(texts, given.long)
        if given.words:
            print_replaced(texts, given.words)
    except BrokenPipeError:
        sys.stderr.close()
    return 0
