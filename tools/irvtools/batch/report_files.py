"""The report files for a pipeline: JUnit and CSV."""

from __future__ import annotations

import csv
import io
import math
from typing import Any
from xml.sax.saxutils import escape, quoteattr

from irvtools.batch.batch_report import GOOD, LEFT_OUT, NO_ANSWER, rows_of

XML, TABLE = "report.xml", "report.csv"
HEADER = ("configuration", "verdict", "question", "outcome", "answer", "seconds", "CPU seconds",
          "memory KiB", "machine", "solver", "configuration checksum", "program checksum",
          "program is proved", "job", "file checksums")


def attributes(**values):
    """Returns an element's attributes."""
    return "".join(f" {key}={quoteattr(str(value))}" for key, value in values.items())


def element(tag, inside="", /, **values):
    """Returns an element; `inside` is markup."""
    return f"<{tag}{attributes(**values)}>{inside}</{tag}>\n"


def test_case(row, result):
    """Returns a test case: a question about a configuration."""
    inside = ""
    if result.outcome == NO_ANSWER:
        inside = element("error", escape(result.line), type=NO_ANSWER, message=result.line)
    elif result.outcome == LEFT_OUT:
        inside = element("skipped", message=result.line)
    elif result.outcome != GOOD:
        inside = element("failure", escape(f"{row.verdict}. {row.sentence}"), type=result.outcome,
                         message=result.line)
    return element("testcase", inside, classname=row.name, name=result.question,
                   time=f"{result.measure('seconds'):.3f}")


def proved_word(report):
    """Returns in one word whether the program is known to be proved."""
    return "yes" if report["is_proved"] else "no"


def junit(report: dict[str, Any]) -> str:
    """Returns the report as JUnit."""
    results = [(row, result) for row in rows_of(report) for result in row.results]
    outcomes = [result.outcome for _, result in results]
    errors, skipped, good = (outcomes.count(each) for each in (NO_ANSWER, LEFT_OUT, GOOD))
    properties = "".join(element("property", name=name, value=value) for name, value in (
        *((name, report[name]) for name in ("program", "version", "engine", "directory")),
        ("program is proved", proved_word(report))))
    inside = element("properties", "\n" + properties) + "".join(
        test_case(*each) for each in results)
    suite = element("testsuite", "\n" + inside, name="irv", tests=len(results), errors=errors,
                    failures=len(results) - errors - skipped - good, skipped=skipped,
                    time=f"{math.fsum(result.measure('seconds') for _, result in results):.3f}")
    return '<?xml version="1.0" encoding="UTF-8"?>\n' + element("testsuites", "\n" + suite)


def cell(text):
    """Returns a text that no spreadsheet takes for a formula. If it looks like one, its first
    character becomes a number."""
    return f"\\x{ord(text[0]):02x}{text[1:]}" if text[:1] in tuple("=+-@") else text


def checksums_of(result):
    """Returns the checksums of an answer's files, each after its role."""
    return " ".join(f"{role}={checksum}" for role, _, checksum in result.files())


def table(report: dict[str, Any]) -> str:
    """Returns the report as CSV, one line per question."""
    out = io.StringIO()
    writer = csv.writer(out, lineterminator="\r\n")
    writer.writerow(HEADER)
    for row in rows_of(report):
        for result in row.results:
            writer.writerow([
                cell(row.name), row.verdict, result.question, result.outcome, result.line,
                f"{result.measure('seconds'):.3f}", f"{result.measure('processor_seconds'):.3f}",
                result.measure("memory_kib", max), "; ".join(result.machines()),
                "; ".join(result.solvers()), row.checksum, report["program"],
                proved_word(report), result.key, checksums_of(result)])
    return out.getvalue()
