"""The page's material for a safety case."""

from __future__ import annotations

from typing import TYPE_CHECKING

from irvtools.calls import provenance
from irvtools.html.markup import code, table, tag, text

if TYPE_CHECKING:
    from irvtools.html.report import Report

LONGEST_LINE = 160      # of an answer


def safety_part(page: Report) -> None:
    """Adds the material for a safety case."""
    page.head("For the safety case", "safety-case")
    options = page.options
    cert = f"{options.cert}: sha256 {provenance.sum_of_file(options.cert)}" if page.has_cert \
        else "none" if options.is_cert_kept else "none was kept (--no-cert)"
    rows = [("configuration", f"{options.name}: sha256 {provenance.sum_of(page.given)} "
             f"({len(page.given)} bytes)"),
            ("certificate", cert),
            ("program", f"{options.program}: sha256 {provenance.sum_of_file(options.program)}"),
            ("version", provenance.version()), ("sources", provenance.sources()),
            ("toolchain (rt version)", provenance.toolchain())]
    if page.given_run:
        rows.insert(1, (f"{page.given_run.what} text", f"{page.given_run.name}: sha256 "
                        f"{provenance.sum_of(page.given_run.data)} ({len(page.given_run.data)} "
                        f"bytes)"))
    page.add(table([], [[name, ("", code(value))] for name, value in rows if value], "sums"))
    page.add(table(["call", "status", "first line"], [
        [("", code("irv " + " ".join(call.words))),
         "none" if call.status is None else str(call.status), ("", code(cut(call.said)))]
        for call in page.calls], "calls"))
    page.add(tag("p", text(f"irv replay was called {page.program.replays} times more, for the runs "
                           f"on this "
                           "page.")))
    premises_part(page)
    calls = "\n".join(f"./irv {' '.join(call.words)} < {options.name}" for call in page.calls)
    page.add(tag("p", text("To repeat this, run at the top of the sources, at the commit above:"),
                 class_="lead"),
             tag("pre", text(f"{calls}\n./irv --html {' '.join(options.given_words)} < "
                             f"{options.name}")))


def premises_part(page):
    """Adds the assumptions behind an answer."""
    premises = provenance.premises()
    if not premises:
        page.add(tag("p", text("docs/assurance/qualification.md does not exist here, so the "
                               "assumptions "
                               "cannot be listed.")))
        return
    page.add(tag("p", text("The answers depend on these assumptions of "
                           "docs/assurance/qualification.md:"),
                 class_="lead"))
    page.add(table(["no.", "assumption"], premises))


def cut(line):
    """Returns a line, cut if long, such as the configuration that table prints."""
    return line if len(line) <= LONGEST_LINE else f"{line[:LONGEST_LINE]} … ({len(line)} characters)"
