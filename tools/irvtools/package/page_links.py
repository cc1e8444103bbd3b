"""The links of pages and documents, and whether they are dead."""

import os
import re
from html.parser import HTMLParser
from urllib.parse import unquote

LINK = re.compile(r"\]\(<?([^)\s>]+)>?(?:\s+\"[^\"]*\")?\)")


class Links(HTMLParser):
    """An HTML page's links, and its elements' identifiers."""

    def __init__(self):
        super().__init__()
        self.links, self.ids = [], set()

    def handle_starttag(self, tag, attrs):
        """Takes an element's links."""
        for name, value in attrs:
            if name in ("href", "src", "xlink:href") and value:
                self.links.append(value)
            elif name == "id":
                self.ids.add(value)


def links_of(name, text):
    """Returns the links of a page or document, and a page's identifiers."""
    if name.endswith(".html"):
        parser = Links()
        parser.feed(text)
        return parser.links, parser.ids
    prose = re.sub(r"^( *)(```|~~~).*?^ *\2", "", text, flags=re.M | re.S)
    return LINK.findall(re.sub(r"`[^`\n]*`", "", prose)), None


def is_dead(link, base, ids, exists):
    """Returns whether a link of a file in the directory `base` leads nowhere."""
    if re.match(r"[a-z][a-z0-9+.-]*:", link):
        return not link.startswith(("http:", "https:", "mailto:", "data:"))
    path, _, mark = link.partition("#")
    if not path:
        return ids is not None and bool(mark) and unquote(mark) not in ids
    target = os.path.normpath(os.path.join(base, unquote(path)))
    return target.startswith(("/", "..")) or not exists(target)
