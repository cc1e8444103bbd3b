"""Markdown reference links: `[words][KEY]`, with the target in a line `[KEY]: TARGET`."""

import re

TARGET = re.compile(r"^\[(\w+)\]: (\S+)$", re.M)
REFERENCE = re.compile(r"\]\[(\w+)\]")


def with_targets(text: str) -> str:
    """Returns a page with reference links as `[words](TARGET)`.

    A link without a target stays, so that a check can find it.
    """
    targets = dict(TARGET.findall(text))
    return REFERENCE.sub(
        lambda link: f"]({targets[link[1]]})" if link[1] in targets else link[0], text
    )
