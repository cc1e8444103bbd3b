"""Runs each transcript of the documents with the program, and compares the output.

`support/transcripts.py` describes transcripts. Each document has its own directory, with copies of
`examples/` and the tools, in which `./irv` is the program. A transcript that calls a missing
program, such as another solver, is skipped.
"""

import re
import shlex
import shutil
import tempfile
from pathlib import Path
from tests.support import transcripts
from irvtools.paths import TOP
from tests.support.harness import ProgramTest, Test

PARTS = "examples", "tools"
# hand-written documents, with how many commands pass, fail and are left out
HAND_WRITTEN = [
    ("```\n$ echo a; echo b\na\nb\n```\n", 1, 0, 0),
    ("```\n$ echo a\nb\n```\n", 0, 1, 0),
    ("```\n$ echo a\n```\n", 0, 1, 0),
    ("```\n$ true\na\n```\n", 0, 1, 0),
    ("```\n$ echo a\na\n\n```\n", 0, 1, 0),
    ("```\n$ echo a >&2\na\n```\n", 1, 0, 0),
    ("```\n$ echo a > f\n```\ntext\n$ none\n```\n$ cat f\na\n$ cat g\na\n```\n", 2, 1, 0),
    ("```\n$ mkdir d && cd d\n$ touch e\n```\n```\n$ ls\ne\n```\n", 3, 0, 0),
    ("```\n$ echo a \\\n    b\na b\n$ echo c\nc\n```\n", 2, 0, 0),
    ("```\n$ no-such-solver f\ns\n$ echo a\nb\n```\n```\n$ echo a | no-such-solver\n```\n", 0, 0, 2),
    ("```\n$ exit 0\n$ echo a\na\n```\n", 1, 1, 0),
    ("```json\n{}\n```\n\n```\ntext\n```\n", 0, 0, 0),
    ("```\n$ echo irv --batch: 3 of 7 jobs; echo a\na\n```\n", 1, 0, 0),
]


LAUNCHER = """#!/bin/sh
for word do case $word in
    --) break ;;
    --explain | --advise) exec "{here}/tools/explain" --program {program} "$@" ;;
esac; done
case ${{1-}} in
    --?*) tool=$(printf %s "${{1#--}}" | tr - _); [ ! -x "{here}/tools/$tool" ] || {{
        shift; exec "{here}/tools/$tool" --program {program} "$@"; }} ;;
esac
exec {program} "$@"
"""


def lay_out(directory, program):
    """Prepares the directory of a document's transcripts: `./irv` calls the program, and the tools
    of the launcher's options."""
    for part in PARTS:
        shutil.copytree(TOP / part, directory / part, ignore=shutil.ignore_patterns("__pycache__"))
    shutil.copy(TOP / "VERSION", directory / "VERSION")
    launcher = directory / "irv"
    launcher.write_text(LAUNCHER.format(here=directory, program=shlex.quote(str(program))))
    launcher.chmod(0o755)


class ReaderTests(Test):
    """Tests of the transcript reader."""

    def test_self_check(self):
        """Hand-written documents have their numbers of passed, failed and skipped commands."""
        faults = []
        for text, *wanted in HAND_WRITTEN:
            with tempfile.TemporaryDirectory(prefix="irv-transcripts-") as directory:
                passed, failed, left_out = transcripts.run(text, directory)
            if [passed, len(failed), len(left_out)] != wanted:
                faults.append(f"{text!r}: {passed, failed, left_out}")
        self.see(faults, len(HAND_WRITTEN))


class TranscriptTests(ProgramTest):
    """The transcripts of the documents."""

    def see_document(self, name):
        """Runs the transcripts of a document."""
        with tempfile.TemporaryDirectory(prefix="irv-transcripts-") as directory:
            here = Path(directory) / "irv"
            here.mkdir()
            lay_out(here, self.program)
            passed, faults, left_out = transcripts.run((TOP / name).read_text(encoding="utf-8"), here)
        self.see(faults, passed)
        if left_out:
            self.skipTest(f"{len(left_out)} of {passed + len(left_out)} commands: {left_out[0]}")


def add_documents():
    """Adds a test for each document that has a transcript."""
    for path in sorted(TOP.glob("docs/**/*.md")) + [TOP / "README.md", TOP / "CONTRIBUTING.md"]:
        if path.is_file() and re.search(r"^```\w*\n(?:[^`].*\n)*?\$ ", path.read_text(encoding="utf-8"), re.M):
            name = path.relative_to(TOP).as_posix()

            def test(self, name=name):
                self.see_document(name)
            setattr(TranscriptTests, "test_" + re.sub(r"\W", "_", name.removesuffix(".md")), test)


add_documents()
