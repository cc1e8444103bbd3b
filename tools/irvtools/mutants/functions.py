"""The functions of a source file, by the layout of `rt fmt`.

A function begins at its line with `fn`. Its body begins after the line that is, or ends in, an
opening brace. It ends at the next line that is a closing brace. Both have the indentation of `fn`.
"""

import re
from dataclasses import dataclass

HEAD = re.compile(r"( *)(?:pub(?:\([^)]*\))? )?(?:const )?(?:unsafe )?fn (\w+)")
BLOCK = re.compile(r"( *)(?:unsafe )?(?:impl\b|(?:pub(?:\([^)]*\))? )?trait )")
CYCLE = re.compile(r" *#\[cycle\((\w+)\)\]")
CLAUSE = re.compile(r" *(?:requires|ensures|ghost)\b")
WORD = re.compile(r"'\w+|\w+")


@dataclass(frozen=True)
class Function:
    """A function: module, type if a method, name, and cycle of calls. Line numbers: `first`, `body`
    (the begin of the body) and `last`."""

    module: str
    owner: str
    name: str
    first: int
    body: int
    last: int
    cycle: str

    @property
    def path(self):
        """Returns the end of its prover name: a method belongs to its type's module."""
        return "::".join(filter(None, (self.owner or self.module, self.name)))


def module_of(path):
    """Returns a source file's module: `src/read/step.rt` is `read::step`, and `src/lib.rt` the
    root."""
    parts = path.removeprefix("src/").removesuffix(".rt").split("/")
    return "" if parts in (["lib"], ["main"]) else "::".join(parts)


def before_brackets(text):
    """Returns the text before the first angle bracket."""
    return text.split("<")[0].strip()


def after_parameters(head):
    """Returns a block's header after `impl` and any parameters in angle brackets."""
    depth = 0
    for at, sign in enumerate(head):
        depth += (sign == "<") - (sign == ">" and head[at - 1] not in "-=")
        if not depth:
            return head[at + 1 :] if at else head
    return head


def owner_of(header):
    """Returns the prover's name for a method block with this header: `Row` for `impl<T> Row<T> {`,
    `FaultFromAllocError` for `impl From<AllocError> for Fault {`."""
    head = header.split("{")[0].split(" where ")[0].strip()
    if "trait " in head and not head.startswith("impl"):
        return WORD.findall(head.split("trait ", 1)[1])[0]
    head = after_parameters(head.removeprefix("unsafe ").removeprefix("impl")).strip()
    trait, between, owner = head.rpartition(" for ")
    name = WORD.findall(before_brackets(owner if between else head))[-1]
    trait = re.sub(r"\w+::", "", trait)
    return name + "".join(word for word in WORD.findall(trait) if word[0] != "'")


def depth_of(line):
    """Returns how many brackets a line leaves open, outside comments."""
    code = line.split("//")[0]
    return sum(code.count(sign) for sign in "([{") - sum(code.count(sign) for sign in ")]}")


def end_of_head(lines, first, margin):
    """Returns the last line number of a function's head: the line that opens its body, or a
    declaration's last one. A `;` inside brackets ends nothing."""
    depth = 0
    for number in range(first, len(lines)):
        line = lines[number]
        is_clause = number > first and (CLAUSE.match(line) or line.startswith(margin + "     "))
        if line in (margin + "{", margin + "{}") or line.endswith((" {", " {}")) and not is_clause:
            return number
        depth += depth_of(line)
        if not depth and line.endswith((";", "}")) and (number == first or line.endswith(";")):
            return number
    return len(lines) - 1


def functions_of(path, text):
    """Returns the functions of a file, in order."""
    lines, found, owner, end, cycle = text.split("\n"), [], "", "", ""
    for number, line in enumerate(lines):
        block, head, is_in_cycle = BLOCK.match(line), HEAD.match(line), CYCLE.match(line)
        if block:
            end, owner = block[1] + "}", owner_of(" ".join(lines[number : number + 12]))
        elif owner and line == end:
            owner = ""
        elif is_in_cycle:
            cycle = is_in_cycle[1]
        elif head:
            body = end_of_head(lines, number, head[1])
            last = body if not lines[body].endswith("{") else next(
                at for at in range(body + 1, len(lines)) if lines[at] == head[1] + "}")
            found.append(Function(module_of(path), owner, head[2], number, body, last, cycle))
            cycle = ""
    return found
