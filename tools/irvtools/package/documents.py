"""The sources that a package has as files: this version's pages, the definitions behind its
answers, all files linked there, and the checkers."""

from __future__ import annotations

import os
import re
from urllib.parse import unquote

from irvtools.docs import definitions
from irvtools.package.page_links import links_of
from irvtools.package.source_archive import Files

# They check answers besides the program.
CHECKERS = ("tools/audit", "tools/lrat")
IMPORT = re.compile(r"^\s*from (irvtools(?:\.\w+)*) import (.+)$", re.M)
PAGES = ("README.md", "CHANGELOG.md", "VERSION", "CONTRIBUTING.md")


def document_names(files: Files) -> list[str]:
    """Returns the names of a package's documents among the sources. A linked directory is included
    with its documents, or if it has none with all files except Markdown."""
    defined = {f"crates/{place}" for _, by_file in definitions.stages() for place in by_file}
    found = {name for name in files if name in PAGES or name.startswith("docs/") or name in defined}
    left, directories = sorted(found), set()
    while left:
        name = left.pop()
        if not name.endswith(".md"):
            continue
        for target in targets_of(name, files[name][1].decode(errors="replace")):
            if target in files and target not in found:
                found.add(target)
                left.append(target)
            elif target not in files:
                directories.add(f"{target}/")
    for directory in sorted(directories):
        if not any(name.startswith(directory) for name in found):
            found |= {name for name in files
                      if name.startswith(directory) and not name.endswith(".md")}
    return sorted(found)


def checker_names(files: Files) -> list[str]:
    """Returns the checkers among the sources, with all modules that they import."""
    found, left = set(), list(CHECKERS)
    while left:
        name = left.pop()
        if name not in files or name in found:
            continue
        found.add(name)
        for package, names in IMPORT.findall(files[name][1].decode()):
            place = "tools/" + package.replace(".", "/")
            modules = re.findall(r"\w+", names)
            left += [f"{place}.py", *(f"{place}/{module}.py" for module in modules)]
            parts = place.split("/")
            left += ["/".join(parts[:count]) + "/__init__.py" for count in range(2, len(parts) + 1)]
    return sorted(found)


def targets_of(name: str, text: str) -> list[str]:
    """Returns the link targets of a document, as paths from the top."""
    links = [link.partition("#")[0] for link in links_of(name, text)[0]
             if not re.match(r"[a-z][a-z0-9+.-]*:", link)]
    return [os.path.normpath(os.path.join(os.path.dirname(name), unquote(link)))
            for link in links if link]
