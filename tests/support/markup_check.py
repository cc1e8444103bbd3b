"""Checks that a page is well-formed, has only allowed markup, and opens nothing external."""

from html.parser import HTMLParser

EMPTY = {"meta", "br", "path", "rect", "circle", "use", "line"}     # may lack an end tag
ALLOWED = {"nav", "a", "html", "head", "meta", "title", "style", "body", "h1", "h2", "h3", "p", "div", "span", "b", "i",
           "code", "pre", "ul", "li", "table", "thead", "tbody", "tr", "td", "th", "details", "summary", "svg", "g",
           "defs", "use", "path", "rect", "circle", "text"}
OPENING = {"src", "href", "srcset", "data", "action", "background", "xlink:href", "poster", "style"}


class Checker(HTMLParser):
    """A parser that collects faults."""

    def __init__(self):
        super().__init__(convert_charrefs=True)
        self.open, self.wrong, self.ids, self.used = [], [], [], set()

    def handle_startendtag(self, tag, attributes):
        self.look(tag, attributes)

    def handle_starttag(self, tag, attributes):
        self.look(tag, attributes)
        if tag not in EMPTY:
            self.open.append(tag)

    def handle_endtag(self, tag):
        if tag in EMPTY and (not self.open or self.open[-1] != tag):
            return
        if not self.open or self.open.pop() != tag:
            self.wrong.append(f"</{tag}> at {self.getpos()} ends nothing")

    def look(self, tag, attributes):
        """Checks an element and its attributes."""
        if tag not in ALLOWED:
            self.wrong.append(f"an element {tag} at {self.getpos()}")
        for name, value in attributes:
            if name.startswith("on"):
                self.wrong.append(f"an attribute {name} at {self.getpos()}")
            elif name == "id":
                self.ids.append(value)
            elif name in OPENING and not (name == "style" and value == "position:absolute"):
                if not (value or "").startswith("#"):
                    self.wrong.append(f"{name}={value} at {self.getpos()}")
                else:
                    self.used.add(value[1:])


def faults(page):
    """Yields the faults of a page."""
    checker = Checker()
    checker.feed(page)
    checker.close()
    yield from checker.wrong[:5]
    if checker.open:
        yield f"not ended: {checker.open}"
    if len(set(checker.ids)) != len(checker.ids):
        yield "an id stands twice"
    if checker.used - set(checker.ids):
        yield f"nothing has the ids {sorted(checker.used - set(checker.ids))[:5]}"
    style = page.partition("<style>")[2].partition("</style>")[0]
    if "url(" in style or "@import" in style:
        yield "the style opens something"
    if not page.startswith("<!doctype html>"):
        yield "no document"
