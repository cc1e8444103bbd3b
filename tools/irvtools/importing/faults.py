"""The import's only exception, and the display of data texts."""


class ImportFault(Exception):
    """A fault that ends the import: nothing is written after it. The message names its location."""


def shown(text: str) -> str:
    """Returns a data text for messages: without control characters, and short."""
    plain = "".join(one if one.isprintable() else "?" for one in text)
    return plain if len(plain) <= 60 else plain[:57] + "..."
