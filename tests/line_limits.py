"""Counts lines that are too wide and files that are too long, and sees that there are never more.

Counted for each crate, and for `tools/` and `tests/`:

- `wide-comments`: lines of comments in `.rt` and `.antt` files over 100 columns, but for a URL or a drawing;
- `wide`: lines of clauses in the code over 100 columns;
- `wider`: those of them over 120;
- `proof-lines`: lines of `specs/` and `proofs/` over 250 columns;
- `proofs`: files of proofs over 300 lines;
- `files`: files of code over 300 lines.

Imports and what `rt` writes by itself (`specs/declared/`) do not count. `line_limits.counts` has the allowed counts,
0 if not listed. Another count fails; `tests/update_lists` lowers the allowed counts.
"""

import re
from collections import Counter, defaultdict
from pathlib import Path

from tests.support import sources
from irvtools.paths import TOP
from tests.support.harness import Test

COUNTS = TOP / "tests/line_limits.counts"
KINDS = ("wide-comments", "wide", "wider", "proof-lines", "proofs", "files")
CLAUSE_WIDTH, WIDEST_CLAUSE, PROOF_WIDTH, MOST_LINES = 100, 120, 250, 300
COMMENT_WIDTH = 100
COMMENT = {".rt": re.compile(r"\s*//"), ".antt": re.compile(r"\s*--")}     # a line that is only a comment
URL = re.compile(r"https?://\S+")
DRAWING = re.compile(r"\S {3,}\S")      # three spaces in a row, which no sentence has
CLAUSE = re.compile(r" *(?:requires|ensures|lends|invariant|ghost)\b(?! use).*\{")


def place_of(file):
    """Returns the crate of a file, or its directory at the top."""
    parts = file.split("/")
    return parts[1] if parts[0] == "crates" else parts[0]


def clause_lines(lines):
    """Yields the line numbers of clauses, from the opening to the closing brace."""
    depth = 0
    for number, line in enumerate(lines, 1):
        if depth or CLAUSE.match(line):
            yield number
            depth = max(0, depth + line.count("{") - line.count("}"))


def is_wide_comment(line):
    """Returns whether a comment is too wide without its URLs, and is not a drawing."""
    return len(URL.sub("", line)) > COMMENT_WIDTH and not DRAWING.search(line)


def found_of(file, text):
    """Yields what is too wide or too long in a file: kind, line number and size."""
    lines = text.rstrip("\n").split("\n")
    is_proof, is_code = "/proofs/" in file, not file.endswith(".antt")
    comment = COMMENT.get(Path(file).suffix)
    if comment:
        yield from (("wide-comments", number, len(line)) for number, line in enumerate(lines, 1)
                    if comment.match(line) and is_wide_comment(line))
    if file.endswith(".rt"):
        widths = [(number, len(lines[number - 1])) for number in clause_lines(lines)]
        yield from (("wide", number, width) for number, width in widths if width > CLAUSE_WIDTH)
        yield from (("wider", number, width) for number, width in widths if width > WIDEST_CLAUSE)
    elif file.endswith(".antt"):
        yield from (("proof-lines", number, len(line)) for number, line in enumerate(lines, 1)
                    if len(line) > PROOF_WIDTH and not line.startswith("use "))
    if len(lines) > MOST_LINES and (is_proof or is_code):
        yield "proofs" if is_proof else "files", 1, len(lines)


def over_limit(texts):
    """Returns all of them: place, kind, file, line and size."""
    return [(place_of(file), kind, file, number, size) for file, text in texts.items()
            if "/declared/" not in file for kind, number, size in found_of(file, text)]


def scripts_of(root):
    """Returns the code files in other languages, by path, with their texts."""
    found = [path for directory in ("tools", "tests") for end in ("js", "bash")
             for path in root.glob(f"{directory}/**/*.{end}")]
    return {str(path.relative_to(root)): path.read_text(encoding="utf-8") for path in [*found, root / "irv"]}


def counted(found):
    """Returns the number of each kind at each place."""
    return Counter((place, kind) for place, kind, *_ in found)


def read_counts(text):
    """Returns the recorded counts."""
    return Counter({(place, kind): int(number) for place, *rest in
                    (line.split() for line in text.splitlines() if line and not line.startswith("#"))
                    for kind, _, number in (it.partition("=") for it in rest)})


def written(counts):
    """Returns the counts as recorded: a line per place."""
    rows = defaultdict(list)
    for place, kind in sorted(counts, key=lambda it: (it[0], KINDS.index(it[1]))):
        if counts[place, kind]:
            rows[place].append(f"{kind}={counts[place, kind]}")
    return "# tests/line_limits.py says what is counted. These numbers may only fall.\n" + "".join(
        f"{place} {' '.join(row)}\n" for place, row in rows.items())


def faults_of(now, allowed):
    """Yields the differences between present and allowed counts."""
    for place, kind in sorted(set(now) | set(allowed)):
        have, most = now[place, kind], allowed[place, kind]
        if have > most:
            yield f"{place}: {have} {kind}, where there were {most}"
        elif have < most:
            yield f"{place}: {have} {kind}, fewer than the {most} written down (tests/update_lists)"


def lowered(now, allowed):
    """Returns the recorded counts, lowered to the present ones."""
    return Counter({key: min(now[key], allowed[key]) for key in allowed})


def self_check():
    """Checks the counts of each kind and place, and their comparison."""
    clause = "    ensures same { " + "x" * 90 + " }"
    texts = {
        "crates/a/src/a.rt": "\n".join([
            "fn f()", clause, "    ensures long {", "        " + "y" * 130, "    }", "    ensures short { a }", "{",
            "    let z = \"" + "z" * 200 + "\";", "}", ""]),
        "crates/a/specs/A.antt": "use " + "x" * 300 + "\nabbrev a = " + "x" * 300 + "\n",
        "crates/a/proofs/A.antt": "short\n" * 301 + "b" * 251 + "\n" + "b" * 250 + "\n",
        "crates/b/proofs/B.antt": "short\n" * 300,
        "crates/b/src/b.rt": "a;\n" * 301,
        "crates/c/src/c.rt": "\n".join([
            "    /// " + "x" * 93, "    /// " + "x" * 92, "//! " + "x" * 97, "// " + "x" * 98, "let a = 1; // " + "x" * 90,
            "/// (https://" + "x" * 90 + "), for short", "/// " + "x" * 90 + " (https://a.b), for short"]),
        "crates/c/specs/C.antt": "\n".join(["-- " + "x" * 98, "--  a" + " " * 90 + "b--c", "x " * 60]),
        "tools/c.py": "# " + "c" * 110 + "\n" + "c\n" * 300,
        "tests/d.py": "d\n" * 300,
    }
    wanted = {("a", "wide"): 2, ("a", "wider"): 1, ("a", "proof-lines"): 2, ("a", "proofs"): 1,
              ("c", "wide-comments"): 5, ("b", "files"): 1, ("tools", "files"): 1}
    now = counted(over_limit(texts))
    assert now == Counter(wanted), now
    assert read_counts(written(now)) == now, written(now)
    assert list(faults_of(now, now)) == []
    for key in wanted:
        less = Counter({**wanted, key: wanted[key] - 1})
        assert len(list(faults_of(now, less))) == 1, key
        assert lowered(now, less)[key] == wanted[key] - 1, key
        assert len(list(faults_of(less, now))) == 1 and lowered(less, now) == less, key


def update():
    """Lowers the counts to the present ones."""
    now = counted(over_limit(sources.texts_of(TOP) | scripts_of(TOP)))
    COUNTS.write_text(written(lowered(now, read_counts(COUNTS.read_text(encoding="utf-8")))), encoding="utf-8")


class LineLimitTests(Test):
    """Tests that only counted lines and files exceed the limits."""

    def test_self_check(self):
        """Each kind is counted in its place."""
        self_check()

    def test_sources(self):
        """The counts equal those of `line_limits.counts`."""
        now = counted(over_limit(sources.texts_of(TOP) | scripts_of(TOP)))
        allowed = read_counts(COUNTS.read_text(encoding="utf-8"))
        self.see(faults_of(now, allowed), max(len(set(now) | set(allowed)), 1))
