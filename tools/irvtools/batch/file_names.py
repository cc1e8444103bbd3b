"""Shows file names, which may be any bytes."""

import re

# Characters that XML can't hold or that are invisible.
UNSEEN = re.compile(
    "[\\\\\x00-\x1f\x7f-\x9f\ud800-\udfff\ufffe\uffff\u2028\u2029\u200b-\u200f\u202a-\u202e]")


def escaped(found):
    """Returns a character as its number, or a byte that isn't UTF-8 as that byte."""
    number = ord(found[0])
    if found[0] == "\\":
        return "\\\\"
    if 0xDC80 <= number <= 0xDCFF:
        return f"\\x{number - 0xDC00:02x}"
    return f"\\x{number:02x}" if number < 0x100 else f"\\u{number:04x}"


def shown(name: str) -> str:
    """Returns a name on one line. Different names are shown differently."""
    return UNSEEN.sub(escaped, name)
