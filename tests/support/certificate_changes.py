"""Changes of a certificate, and an audit's expected answer to each.

The answers come from `certificate.audited`, which shares only the formulas with the program.
Unchanged first lines are not derived again.
"""

from __future__ import annotations

import random
import re
from typing import Iterator

from irvtools.checkers import certificate

BYTES = b"0123456789 -\n\r\tqsex\x00\xff"
NAMED_CUTS = 100
NUMBER = re.compile(rb"[0-9]+")


def queries(lines):
    """Returns the indices of the lines that begin a query."""
    return [place for place, line in enumerate(lines) if line.startswith(b"query ")]


def other_bytes(text: bytes, place: int, count: int, chance: random.Random) -> Iterator[bytes]:
    """Yields the text with the byte at `place` changed in `count` ways."""
    others = [byte for byte in BYTES if byte != text[place]]
    for byte in chance.sample(others, min(count, len(others))):
        yield text[:place] + bytes([byte]) + text[place + 1:]


def put(lines: list[bytes], first: int, after: int, *new: bytes) -> bytes:
    """Returns the lines' text, with `new` for those from `first` to before `after`."""
    return b"".join(line + b"\n" for line in [*lines[:first], *new, *lines[after:]])


def number_somewhere(text, chance):
    """Returns the match of the first number at or after a random place."""
    at = chance.randrange(len(text))
    while at > 0 and text[at - 1:at].isdigit():
        at -= 1
    return NUMBER.search(text, at) or NUMBER.search(text)


def number_changed(text, chance):
    """Changes a random number."""
    at = number_somewhere(text, chance)
    value = int(at[0]) + chance.choice([-10, -2, -1, 1, 2, 10])
    new = chance.choice([value, int(number_somewhere(text, chance)[0]), 0, 2 ** 64, -int(at[0])])
    return text[:at.start()] + str(new).encode() + text[at.end():]


def word_changed(text, chance):
    """Leaves out, doubles or moves a word of a random line."""
    lines = text.split(b"\n")[:-1]
    at = chance.randrange(len(lines))
    words = lines[at].split(b" ")
    one = chance.randrange(len(words))
    word = words.pop(one)
    kind = chance.randrange(3)
    if kind == 1:
        words[one:one] = [word, word]
    elif kind == 2:
        words.insert(chance.randrange(len(words) + 1), word)
    return put(lines, at, at + 1, b" ".join(words))


def lines_changed(text, chance):
    """Leaves out, doubles, copies or swaps random lines."""
    lines = text.split(b"\n")[:-1]
    one, other = sorted(chance.randrange(len(lines)) for _ in range(2))
    kind = chance.randrange(5)
    if kind == 0:
        return put(lines, one, one + 1)
    if kind == 1:
        return put(lines, one, one, lines[one])
    if kind == 2:
        return put(lines, other, other, lines[one])
    if kind == 3:
        return put(lines, one, other)
    swapped = [*lines[:other], lines[one], *lines[other + 1:]]
    return put(swapped, one, one + 1, lines[other])


def bytes_changed(text: bytes, chance: random.Random) -> bytes:
    """Changes, leaves out or adds a random byte, or cuts the text there."""
    at = chance.randrange(len(text))
    kind = chance.randrange(4)
    if kind == 0:
        return next(other_bytes(text, at, 1, chance))
    if kind == 1:
        return text[:at] + text[at + 1:]
    if kind == 2:
        return text[:at] + bytes([chance.choice(BYTES)]) + text[at:]
    return text[:at]


def at_random(text: bytes, count: int, seed: int) -> Iterator[bytes]:
    """Yields `count` texts with one or two random changes, determined by the seed."""
    chance = random.Random(seed)
    kinds = (bytes_changed, bytes_changed, number_changed, number_changed, word_changed, lines_changed)
    for _ in range(count):
        other = chance.choice(kinds)(text, chance)
        if other and chance.randrange(8) == 0:
            other = chance.choice((bytes_changed, number_changed))(other, chance) \
                if re.search(rb"[0-9]", other) else other
        yield other


def cuts(text: bytes) -> Iterator[tuple[bytes, str]]:
    """Yields the text cut at the 100 smallest and greatest lengths, with the answer: the last line
    is rejected."""
    lengths = [*range(NAMED_CUTS), *range(max(NAMED_CUTS, len(text) - NAMED_CUTS), len(text))]
    for length in lengths:
        yield text[:length], f"rejected line {text[:length].count(10) + 1}"


def named(text: bytes) -> Iterator[tuple[bytes, str]]:
    """Yields changes of a certificate for k = 1 with their evident answers."""
    lines = text.split(b"\n")[:-1]
    last = queries(lines)[-1]
    second = queries(lines)[1]
    yield text, "accepted k=1"
    yield put(lines[:-1], 0, 0), f"rejected line {len(lines)}"
    yield text[:-1], f"rejected line {len(lines)}"
    yield text + b"\n", f"rejected line {len(lines) + 1}"
    yield text + b"e", f"rejected line {len(lines) + 1}"
    yield text + text, f"rejected line {len(lines) + 1}"
    yield b"", "rejected line 1"
    yield b"irv certificate 3\nsafe 0\n", "rejected line 2"
    yield put(lines, 0, 1, b"irv certificate 1"), "rejected line 1"
    yield put(lines, 0, 1, b"irv certificate 2"), "rejected line 1"
    yield put(lines, 0, 1, lines[0] + b"\r"), "rejected line 1"
    yield put(lines, 1, 2, b"safe 2"), f"rejected line {last + 1}"
    yield put(lines, 1, 2, b"spent 1"), "rejected line 2"
    yield put(lines, 3, 3, lines[2]), "rejected line 4"
    yield put(lines, 3, 4, b"step 0 0"), "rejected line 4"
    for hint in (2 ** 64, 2 ** 64 - 1, 2 ** 32):
        other = re.sub(rb" [0-9]+ 0$", b" %d 0" % hint, lines[3])
        yield put(lines, 3, 4, other), "rejected line 4"
    yield put(lines, second - 1, second), f"rejected line {second}"
    yield put(lines, second, second, lines[second - 1]), f"rejected line {second + 1}"
    yield put(lines, second, last), f"rejected line {second + 1}"
    yield put(lines, last, len(lines) - 1), f"rejected line {last + 1}"


def known_lines(text: bytes, other: bytes) -> int:
    """Returns how many first lines two texts share."""
    count = 0
    for one, two in zip(text.split(b"\n")[:-1], other.split(b"\n")[:-1]):
        if one != two:
            break
        count += 1
    return count


def answer(text: bytes, other: bytes, formula_of) -> str:
    """Returns an audit's expected answer to a changed certificate."""
    return certificate.audited(other, formula_of, known_lines(text, other))
