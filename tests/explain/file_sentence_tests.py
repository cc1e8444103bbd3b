"""Tests of hand-derived sentences about certificates, refutations, runs and scenarios."""

from irvtools.explain import proof_texts
from irvtools.paths import TOP
from tests.explain.tool_calls import told
from tests.support.harness import test_case

CERTIFICATE = b"""irv certificate 3
safe 1
query hazard 0
step 0 1 0
query breach 0
step 1 0 2 0
step 0 3 0
query hazard 1
step 0 1 0
query breach 1
step 0 1 0
query step 1
step 0 1 0
end
"""


def check_certificates(_, __):
    """Each bad certificate line has its hand-derived reason."""
    lines = CERTIFICATE.split(b"\n")
    for number, new, wanted in [
            (1, b"irv", "it has to be “irv certificate 3”"), (2, b"safe 0", "it has to be “safe K” with K"),
            (2, b"spent 7", "tools/audit can read it"), (3, b"query breach 0", "has to be “query hazard 0”"),
            (4, b"step 0 7 0", "does not follow by its hints from the formula of query hazard 0"),
            (4, b"query breach 0", "a step of query hazard 0 is needed"),
            (4, b"step 1 0 01 0", "a step of query hazard 0 is needed"),
            (5, b"step 0 1 0", "has to be “query breach 0”"), (12, b"end", "has to be “query step 1”"),
            (14, b"query step 2", "has to be “end”"), (15, b"x\n", "nothing may follow “end”")]:
        text = b"\n".join([*lines[:number - 1], new, *lines[number:]])
        said = proof_texts.rejected_certificate(text, number)
        if wanted not in said or f"Line {number} is" not in said:
            yield f"line {number}: {said}"
    for text, number, wanted in [
            (b"", 1, "Line 1 is missing; it has to be “irv certificate 3”"),
            (b"\n".join(lines[:4]) + b"\n", 5, "Line 5 is missing; it has to be “query breach 0”"),
            (CERTIFICATE[:-1], 14, "Line 14 is “end”, and no line feed ends it")]:
        said = proof_texts.rejected_certificate(text, number)
        if wanted not in said:
            yield f"{number}: {said}"


def check_refutations(_, __):
    """Each bad refutation item has its hand-derived reason."""
    for text, number, variables, wanted in [
            (b"", 1, 2, "The text has 0 items"), (b"3 0", 1, 2, "“3” is not a literal with a variable from 1 to 2"),
            (b"c x\n1 0\n\n2", 2, 2, "Item 2, on line 4, is “2”, and no 0 ends it"),
            (b"1 x 0", 1, None, "“x” is not a literal."), (b"d 1 0 2\n-1 0", 2, 2, "Item 2, on line 1, is “2 -1 0”. This")]:
        said = proof_texts.rejected_item(text, number, variables)
        if wanted not in said:
            yield f"{text}: {said}"


def check_runs(program, _):
    """Each text that is rejected or not a run has its hand-derived reason."""
    given = (TOP / "examples/line-with-boards.json").read_bytes()
    for words, text, wanted in [
            (["replay", "--run", "f"], "run 1\nstart\nenter a\nenter a\nend\n", ["irv: f, line 4: Event 2, enter a, "]),
            (["replay", "--run=f"], "run 1\nstart\nenter z\nend\n", ["irv: f, line 3: Line 3 is “enter z”"]),
            (["replay", "--run", "f"], "drive 1\nend\n", ["line 1", "this is a scenario, which drive reads"]),
            (["drive", "--run", "f"], "run 1\nstart\nend\n", ["line 1", "this is a run, which replay reads"]),
            (["drive", "--run", "f"], "drive 1\nlock r1\nend\n", ["line 2", "“lock"]),
            (["replay", "--run", "f"], "", ["line 1", "The file is empty"]),
            (["replay", "--run", "f"], "run 1", ["line 1", "no line feed ends it"]),
            (["replay", "--run", "f"], "run 1\nstart\n" + "x" * 1048576, ["irv: f: F1: The file that replay reads has 1048588"])]:
        said = told(program, words, given, {"f": text})
        if any(one not in said for one in wanted):
            yield f"{text[:40]!r}: {said}"


FileSentenceTests = test_case("FileSentenceTests", [check_certificates, check_refutations, check_runs])
