"""Reads case files: what a case gives the program, and what it expects."""

import json
import shlex

from irvtools.generators import configurations
from tests.support import long_runs
from irvtools.generators import route_tables
from irvtools.paths import TOP as ROOT

EXAMPLES = ROOT / "examples"
CASES = ROOT / "tests" / "cases"

STANDARD_ERROR = {7: b"irv: usage\n", 8: b"irv: read fault\n",
                  9: b"irv: write fault\n", 10: b"irv: out of memory\n"}
STATUSES = set(range(11))
KEYS = {"why", "before", "words", "conf", "replace", "replace all", "pad", "file", "folder", "sparse",
        "stdout", "stderr", "status", "output", "closed", "memory", "verdict", "certificate", "formula"}


class CaseError(Exception):
    """An unreadable case file: the message names the file and the line."""


class Case:
    """The arguments and inputs of a call, and its expected output and status."""

    def __init__(self, name, where):
        self.name = name
        self.where = where
        self.why = None
        self.before = []
        self.words = None
        self.conf = None
        self.conf_is_folder = False
        self.output_is_full = False
        self.closed = []
        self.memory_mebibytes = None
        self.files = {}
        self.directories = []
        self.sparse = {}
        self.stdout = None
        self.stderr = None
        self.status = None
        self.verdicts = []
        self.certificate = None
        self.has_formula = False
        self.assignments = None

    def copy(self, name, where):
        """Returns a copy under another name, for changes by later keys."""
        other = Case(name, where)
        for key, value in vars(self).items():
            if key not in ("name", "where"):
                setattr(other, key, value.copy() if isinstance(value, (dict, list)) else value)
        return other

    def wanted_stderr(self):
        """Returns the expected standard error: the case's own bytes, or the line of its status."""
        if self.stderr is not None:
            return self.stderr
        return STANDARD_ERROR.get(self.status, b"")


def unescape(text):
    """The bytes of a line with escapes: \\n, \\r, \\t, \\\\ and \\xHH."""
    out = bytearray()
    at = 0
    while at < len(text):
        if text[at] != "\\":
            out += text[at].encode()
            at += 1
            continue
        letter = text[at + 1:at + 2]
        if letter == "x":
            out.append(int(text[at + 2:at + 4], 16))
            at += 4
        elif letter in ("n", "r", "t", "\\"):
            out += {"n": b"\n", "r": b"\r", "t": b"\t", "\\": b"\\"}[letter]
            at += 2
        else:
            raise ValueError(f"no escape: \\{letter}")
    return bytes(out)


def block_bytes(lines):
    """Returns the bytes that a block's lines denote."""
    out = []
    for line in lines:
        kind, rest = line[:1], line[2:]
        if kind == "|":
            out.append(rest.encode() + b"\n")
        elif kind == "~":
            out.append(unescape(rest))
        else:
            count, _, text = rest.partition(" ")
            out.append(unescape(text) * int(count))
    return b"".join(out)


def split_items(text):
    """Returns the items of a case file: key, value, block and line number."""
    items = []
    for number, line in enumerate(text.split("\n"), 1):
        if line[:2] in ("| ", "~ ", "* ") or line in ("|", "~"):
            if not items:
                raise ValueError(f"line {number}: a block without a key")
            items[-1][2].append(line)
        elif line.strip() and not line.startswith("#"):
            key, colon, value = line.partition(":")
            if not colon:
                raise ValueError(f"line {number}: neither a key nor a block's line")
            items.append((key.strip(), value.strip(), [], number))
    return items


def given_bytes(value, block):
    """Returns the bytes of an input: a block, an example, a generated one, or nothing."""
    if value == "" and block:
        return block_bytes(block)
    if value == "nothing" and not block:
        return b""
    word, _, rest = value.partition(" ")
    if word == "example" and not block:
        return (EXAMPLES / rest).read_bytes()
    if word == "made" and not block:
        kind, *words = rest.split()
        if kind in long_runs.MADE:
            return long_runs.MADE[kind](int(words[0]))
        return configurations.made(kind, *words)
    if word == "plant" and block:
        return configurations.plant_text([line[2:] for line in block])
    raise ValueError(f"no input: {value!r}")


def replaced(data, value, everywhere):
    """Returns the bytes with a text replaced, which they must contain."""
    old, arrow, new = value.partition(" => ")
    if not arrow:
        raise ValueError("replace wants OLD => NEW")
    old, new = unescape(old), unescape(new)
    count = data.count(old)
    if count == 0 or (count > 1 and not everywhere):
        raise ValueError(f"{old!r} stands there {count} times")
    return data.replace(old, new)


def padded(data, size):
    """Returns the bytes padded with spaces to a length."""
    if len(data) > size:
        raise ValueError(f"{len(data)} bytes are more than {size}")
    return data + b" " * (size - len(data))


def assignments_of(value):
    """Returns how many assignments a formula must have, or `None` for any formula."""
    count, _, word = value.partition(" ")
    if value != "any" and word != ("assignment" if count == "1" else "assignments"):
        raise ValueError(f"neither any nor N assignments: {value}")
    return None if value == "any" else int(count)


def streams_of(value):
    """Returns the standard streams of these numbers: 0 is input, 1 output, 2 errors."""
    streams = [int(word) for word in value.split()]
    if not streams or not set(streams) <= {0, 1, 2}:
        raise ValueError(f"no standard streams: {value}")
    return streams


def sparse_file(value):
    """Returns a file's length and first bytes; the rest is a hole, which reads as zeros."""
    size, _, beginning = value.partition(" ")
    return int(size), unescape(beginning)


def apply_key(case, key, value, block):
    """Applies one key of a case file to a case."""
    word, _, rest = key.partition(" ")
    if word == "file" and rest:
        case.files[rest] = given_bytes(value, block)
    elif word == "folder" and rest:
        case.directories.append(rest)
    elif word == "sparse" and rest:
        case.sparse[rest] = sparse_file(value)
    elif key not in KEYS:
        raise ValueError(f"no such key: {key}")
    elif key == "why":
        case.why = value
    elif key == "before":
        case.before.append(shlex.split(value))
    elif key == "words":
        case.words = shlex.split(value)
    elif key == "conf":
        case.conf_is_folder = value == "folder"
        case.conf = b"" if case.conf_is_folder else given_bytes(value, block)
    elif key in ("replace", "replace all"):
        case.conf = replaced(case.conf, value, key == "replace all")
    elif key == "pad":
        case.conf = padded(case.conf, int(value))
    elif key == "stdout" and value == "table found" and not block:
        case.stdout = configurations.printed(route_tables.with_routes(json.loads(case.conf)))
    elif key in ("stdout", "stderr"):
        setattr(case, key, given_bytes(value, block))
    elif key == "status":
        case.status = int(value)
    elif key == "memory":
        case.memory_mebibytes = int(value)
    elif key == "output" and value == "full":
        case.output_is_full = True
    elif key == "closed":
        case.closed = streams_of(value)
    elif key == "verdict":
        case.verdicts = value.split(" or ")
    elif key == "certificate":
        case.certificate = value
    elif key == "formula":
        case.has_formula = True
        case.assignments = assignments_of(value)
    else:
        raise ValueError(f"no such value: {key}: {value}")


def finished(case):
    """Returns the case. Raises `CaseError` if a part is missing. A verdict or a formula implies
    output and status."""
    parts = ["why", "words", "conf"]
    if case.verdicts or case.has_formula:
        case.stdout, case.status = None, None if case.verdicts else 0
    else:
        parts += ["stdout", "status"]
    for part in parts:
        if not getattr(case, part) and getattr(case, part) not in (b"", [], 0):
            raise CaseError(f"{case.where}: {case.name}: no {part}")
    return case


def read_case_file(path):
    """Returns the cases of one file. Keys before the first case apply to every case."""
    base = Case("", str(path))
    cases = []
    try:
        items = split_items(path.read_text(encoding="utf-8"))
    except ValueError as fault:
        raise CaseError(f"{path}: {fault}") from fault
    for key, value, block, number in items:
        where = f"{path.name}:{number}"
        if key == "case":
            cases.append(base.copy(value, where))
            continue
        try:
            apply_key(cases[-1] if cases else base, key, value, block)
        except (ValueError, OSError, KeyError, IndexError, json.JSONDecodeError) as fault:
            raise CaseError(f"{where}: {key}: {fault}") from fault
    return [finished(case) for case in cases]
