"""Reads XML as a stream of elements, without document types, entities or external files."""

from pathlib import Path
from typing import Callable, Dict
from xml.parsers import expat

from irvtools.importing.bytes_of_file import chunks
from irvtools.importing.faults import ImportFault, shown

LIMIT_ELEMENTS = 2_000_000
LIMIT_DEPTH = 32
LIMIT_ELEMENT_BYTES = 1 << 20

OnStart = Callable[[str, Dict[str, str]], None]
OnEnd = Callable[[str], None]


class Reader:
    """A single pass over a file. `line` is the current element's line."""

    def __init__(self, path: Path, on_start: OnStart, on_end: OnEnd):
        self.path, self.on_start, self.on_end = path, on_start, on_end
        self.count = self.depth = self.seen = 0
        self.parser = expat.ParserCreate()
        self.parser.StartElementHandler = self.start
        self.parser.EndElementHandler = self.end
        self.parser.StartDoctypeDeclHandler = self.refuse_doctype
        self.parser.EntityDeclHandler = self.refuse_entity
        self.parser.ExternalEntityRefHandler = self.refuse_entity
        self.parser.SetParamEntityParsing(expat.XML_PARAM_ENTITY_PARSING_NEVER)

    @property
    def line(self) -> int:
        """Returns the current line number."""
        return self.parser.CurrentLineNumber

    def fault(self, text: str) -> ImportFault:
        """Returns a fault at the current line."""
        return ImportFault(f"{self.path}: line {self.line}: {text}")

    def refuse_doctype(self, name, *_):
        """Fails: no imported format has a document type."""
        raise self.fault(f"a document type ({shown(name)}) is not allowed")

    def refuse_entity(self, *_):
        """Fails: no imported format has entities."""
        raise self.fault("an entity is not allowed")

    def start(self, name, attributes):
        """Takes an element's start, within the limits."""
        self.count += 1
        self.depth += 1
        if self.count > LIMIT_ELEMENTS:
            raise self.fault(f"more than {LIMIT_ELEMENTS} elements; cut a smaller area out of it")
        if self.depth > LIMIT_DEPTH:
            raise self.fault(f"elements are nested more than {LIMIT_DEPTH} levels deep")
        self.on_start(name, attributes)

    def end(self, name):
        """Takes an element's end."""
        self.depth -= 1
        self.seen += 1
        self.on_end(name)

    def read(self) -> None:
        """Reads the whole file."""
        waited, before = 0, (0, 0)
        try:
            for chunk in chunks(self.path):
                self.parser.Parse(chunk, False)
                now = (self.count, self.seen)
                waited = waited + len(chunk) if now == before else 0
                before = now
                if waited > LIMIT_ELEMENT_BYTES:
                    raise self.fault(f"an element of more than {LIMIT_ELEMENT_BYTES} bytes")
            self.parser.Parse(b"", True)
        except expat.ExpatError as fault:
            raise ImportFault(f"{self.path}: line {fault.lineno}, column {fault.offset}: not XML: "
                              f"{expat.errors.messages.get(fault.code, fault.code)}") from fault
        except (LookupError, ValueError, UnicodeError) as fault:
            raise self.fault(f"not XML of a known encoding: {fault}") from fault
