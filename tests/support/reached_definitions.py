"""The definitions that public contracts reach, compared with definition files whose first line says
that only private contracts or proofs cite them.

A contract is public if others can call its function: `lib.rt` re-exports the function, or the
method's type or trait. It reaches what its clauses name, what that names, and so on, as
`tools/definitions` looks names up. A type's representation and private fields do not count."""

import importlib.machinery
import importlib.util
import re

# a file's first line that denies public use
DENIES = re.compile(r"-- .*\b(?:private contracts|proofs alone)\b")
HANDED_ON = re.compile(r"^pub use (?!ilk_)\w+::(?:\{([^}]*)\}|(\w+));", re.M)
OWNER = re.compile(r"(pub trait|impl)\b(?:<.*?>)? (?:(\w+)[^{]*? for )?&?(\w+)")
CALL = re.compile(r"( *)(pub )?(?:const )?fn (\w+)")
CLAUSE = re.compile(r" *(?:requires|ensures|lends)\b")
KEPT = re.compile(r" +ghost (?!Value\b)")


def tool_of(root):
    """Returns the definition lister of a repository copy as a module."""
    file = root / "tools/irvtools/docs/definitions.py"
    loader = importlib.machinery.SourceFileLoader("definitions_of_copy", str(file))
    module = importlib.util.module_from_spec(importlib.util.spec_from_loader(loader.name, loader))
    loader.exec_module(module)
    module.use(root)
    return module


def handed_on(crate):
    """Returns the names that a crate re-exports from its modules."""
    library = crate / "src/lib.rt"
    text = library.read_text(encoding="utf-8") if library.exists() else ""
    return {name for listed, single in HANDED_ON.findall(text)
            for name in re.findall(r"\w+", listed or single)}


def calls(path, public):
    """Yields the public calls of a file with their clause lines, and the visible types with the
    line of their value."""
    owner, is_open, clauses, indent = None, False, None, ""
    for line in path.read_text(encoding="utf-8").split("\n"):
        block, call = OWNER.match(line), CALL.match(line)
        if block:
            owner, is_open = block[3], block[3] in public
            every = block[1] == "pub trait" or block[2] is not None
        elif line == "}":
            owner = None
        if call:
            clauses, indent = [], call[1]
            name = f"{owner}::{call[3]}" if owner else call[3]
            told = (is_open and (every or call[2])) if owner else (call[2] and call[3] in public)
        elif owner and is_open and line.lstrip().startswith("ghost Value"):
            yield f"{owner}, its value", [line]
        if clauses is None:
            continue
        if clauses or CLAUSE.match(line):
            clauses.append(line)
        if (line in (indent + "{", indent + "{}") or line.endswith((";", "{}"))
                or line.endswith("{") and line.startswith((call[0] if call else "\0", indent + ")"))):
            if told:
                yield name, clauses
            clauses = None


def named_in(tool, path, lines):
    """Yields the definitions that some lines of a file name, as file and name."""
    file, here = tool.file_at(path), ".".join(path.relative_to(tool.CRATES).with_suffix("").parts)
    for word in {word for line in lines for word in tool.names_in(line)}:
        named = file.named(here, word)
        place = named and tool.place_of(*named)
        if place and place[0].is_file() and place[1] in tool.file_at(place[0]).items:
            yield place


def shown(lines):
    """Returns the lines of a declaration that others see, without private fields."""
    if not lines or not lines[0].startswith("pub struct"):
        return [line for line in lines if not KEPT.match(line)]
    return [line for line in lines if not re.match(r" +(?!pub |ghost Value)\w", line)]


def denied(root):
    """Returns the number of public calls, and each denying file with a call and the definition it
    reaches, or `None`."""
    tool, count, queue = tool_of(root), 0, []
    for crate in sorted((root / "crates").iterdir()):
        public = handed_on(crate)
        for path in sorted((crate / "src").rglob("*.rt")) if public else ():
            for name, lines in calls(path, public):
                count += 1
                queue.extend((place, f"{crate.name}, {name}") for place in named_in(tool, path, lines))
    found, reached = set(), {}
    while queue:
        place, name = queue.pop()
        if place not in found:
            found.add(place)
            reached.setdefault(place[0], (name, place[1]))
            below = shown(tool.file_at(place[0]).items[place[1]])
            queue.extend((lower, name) for lower in named_in(tool, place[0], below))
    denying = [path for path in sorted((root / "crates").glob("*/specs/*.antt"))
               if DENIES.match(path.read_text(encoding="utf-8").split("\n", 1)[0])]
    return count, {path: reached.get(path) for path in denying}
