"""The contents of the sources: bodies and contracts of code, statements and definitions of `.antt`
files, and Python functions. Each is an `Item`. Two are the same if their kinds and texts are, apart
from white space and the declared name."""

import ast
import re
from collections import namedtuple

from irvtools.mutants.functions import functions_of

Item = namedtuple("Item", "kind file name text")

# shorter equal texts mean little
LEAST_LINES = 3
LEAST_SIGNS = {"body": 60, "contract": 60, "statement": 30, "definition": 40, "python": 120}

HEAD = re.compile(r"((?:(?:abbrev|unfoldable|pub) )*)(record )?(?!let |use )([^\s:()={]+)((?: [({][^=]*?[)}])*) : ")
IN_TESTS = re.compile(r"crates/\w+_tests/")
ANSWERS = re.compile(r"/(?:Answers|Invariants)\.antt$")
MODULE = re.compile(r"( *)(?:pub )?module \S+ (.*)where$")
REMARK = re.compile(r"^ *--")


def one_line(text):
    """Returns the text with single spaces for white space."""
    return " ".join(text.split())


def is_long(item):
    """Returns whether a text is long enough to be a duplicate."""
    return len(item.text) >= LEAST_SIGNS[item.kind]


def of_code(file, text):
    """Yields function bodies of at least three lines, and signatures with contracts. It leaves out
    contracts of methods, which two types may share, and of tests, which promise little."""
    lines = text.split("\n")
    for function in functions_of(file, text):
        head = without_remarks(lines[function.first:function.body + 1])
        if not function.owner and "ensures" in head and not IN_TESTS.match(file):
            contract = head.partition(f"fn {function.name}")[2]
            yield Item("contract", file, function.name, contract.rstrip(" {}") + " }")
        body = lines[function.body + 1:function.last]
        if len(body) >= LEAST_LINES:
            yield Item("body", file, function.name, without_remarks(body))


def without_remarks(lines):
    """Returns code lines as one, without comment lines."""
    return one_line(" ".join(line for line in lines if not line.strip().startswith("//")))


def blocks(text):
    """Yields each outermost line with its indented lines, and the parameters of the modules around
    them."""
    modules, block = [], []
    for line in [*text.split("\n"), "end"]:
        if not line.strip() or REMARK.match(line):
            continue
        margin = len(line) - len(line.lstrip())
        if block and margin > len(block[0]) - len(block[0].lstrip()) and not MODULE.match(block[0]):
            block.append(line)
            continue
        if block:
            yield " ".join(it for _, it in modules), block
        while modules and modules[-1][0] >= margin:
            modules.pop()
        opened = MODULE.match(line)
        if opened:
            modules.append((margin, opened[2].strip()))
        block = [] if opened else [line]


def declarations(file, text):
    """Yields the statements of lemmas, and the definitions with equations. It leaves out what the
    prover looks up by a function's and a goal's name, which is next to each function."""
    item, equations = None, []
    for modules, block in [*blocks(text), ("", ["end : end"])]:
        whole = one_line(" ".join(block))
        head = HEAD.match(whole)
        if not head:
            equations.append(whole)
            continue
        if item:
            yield item if item.kind == "statement" else defined(item, equations)
        is_lemma = "/proofs/" in file and not head[2] and not re.search("abbrev|unfoldable", head[1])
        said = f"{modules} {whole[head.end(3):]}".strip()
        item = Item("statement" if is_lemma else "definition", file, head[3], said)
        equations = []


def defined(item, equations):
    """Returns a definition with its equations, independent of its own name."""
    name = item.name
    own = [it for it in equations if it.startswith(name)]
    text = " ; ".join([item.text, *own])
    return item._replace(text=re.sub(rf"(?<![\w-]){re.escape(name)}(?![\w-])", "_", text) if own else text)


def python_bodies(file, text):
    """Yields the bodies of Python functions with their parameters, without docstrings."""
    lines = text.split("\n")
    for node in ast.walk(ast.parse(text)):
        if isinstance(node, ast.FunctionDef):
            first = node.body[0]
            is_remark = isinstance(first, ast.Expr) and isinstance(first.value, ast.Constant)
            parameters = " ".join(it.arg for it in node.args.args)
            begin = first.end_lineno if is_remark else first.lineno - 1
            body = one_line(" ".join(lines[begin:node.end_lineno]))
            yield Item("python", file, node.name, f"{parameters}: {body}")


def is_python(path):
    """Returns whether a file is Python, by its ending or its first line."""
    if path.suffix:
        return path.suffix == ".py"
    with path.open("rb") as text:
        return b"python" in text.readline()


def texts_of(root):
    """Returns the texts of the files with code or proofs, by path."""
    found = [path for kind in ("src/**/*.rt", "specs/**/*.antt", "proofs/**/*.antt")
             for path in root.glob(f"crates/*/{kind}")]
    found += [path for directory in ("tools", "tests") for path in root.glob(f"{directory}/**/*")
              if path.is_file() and "__pycache__" not in path.parts and is_python(path)]
    return {str(path.relative_to(root)): path.read_text(encoding="utf-8") for path in sorted(found)}


def items(texts):
    """Yields all items of these files that are long enough."""
    for file, text in texts.items():
        if ANSWERS.search(file) or "/declared/" in file:
            continue
        read = of_code if file.endswith(".rt") else declarations if file.endswith(".antt") else python_bodies
        yield from filter(is_long, read(file, text))
