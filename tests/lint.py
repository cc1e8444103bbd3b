"""Checks the sources of tools, tests and launcher with pyflakes, shellcheck and import rules.

A missing checker skips its test.
"""

from __future__ import annotations

import re
import shutil
import subprocess
import tempfile
import unittest
from pathlib import Path
from typing import Iterable

from irvtools.paths import TOP
from tests.support import runner
from tests.support.harness import Test

ENTRY = "tests/entry.py"                # the only file that may change the import path
PYTHON_START = re.compile(rb"#!.*\bpython3?\b")
SILENCED = re.compile(r"#\s*" + "noqa", re.IGNORECASE)
PATH_EDIT = re.compile(r"\bsys\.path\s*(?:\[[^\]]*\]\s*)?(?:=|\+=|\.\s*(?:append|extend|insert|pop|remove)\b)")
IMPORTS_TESTS = re.compile(r"^\s*(?:from\s+tests\b|import\s+tests\b)", re.MULTILINE)
IMPORTED = re.compile(r"^\s*(?:from\s+(tests[\w.]*)\s+import\s+([^\n(]+|\([^)]*\))|import\s+(tests[\w.]*))",
                      re.MULTILINE)
LETTER_RANGE = re.compile(r"\[[^\[\]]*(?:a-z|A-Z)[^\[\]]*\]")     # means other letters in some locales
TEST_CLASS = re.compile(r"^class \w+\((?:\w+\.)?\w*Test(?:Case)?\w*\):|\btest_case\(", re.MULTILINE)


def python_files(top: Path) -> list[Path]:
    """Returns the Python files and scripts of `tools/` and `tests/`."""
    found = [path for directory in ("tools", "tests") for path in sorted((top / directory).rglob("*"))]
    return [path for path in found if path.is_file() and (
        path.suffix == ".py" or not path.suffix and PYTHON_START.match(path.read_bytes()[:80]))]


def shell_files(top: Path) -> list[Path]:
    """Returns the launcher, its parts and CI's script."""
    return [top / "irv", top / ".ci/run", *sorted((top / "tools").rglob("*.bash"))]


def said_by(command: list[str], files: Iterable[Path]) -> list[str]:
    """Returns a checker's lines about these files, or skips the test if it is not installed."""
    if shutil.which(command[0]) is None:
        raise unittest.SkipTest(f"{command[0]} is not installed")
    done = subprocess.run([*command, *map(str, files)], stdout=subprocess.PIPE, stderr=subprocess.STDOUT,
                          text=True, check=False)
    lines = done.stdout.splitlines()
    return lines or ([f"{command[0]} ends with status {done.returncode}"] if done.returncode else [])


def letter_ranges(files: Iterable[Path]) -> Iterable[str]:
    """Yields the lines of the launcher whose patterns depend on the locale: in Turkish `[a-z]` leaves out `i`."""
    for path in files:
        for number, line in enumerate(path.read_text(encoding="utf-8").splitlines(), 1):
            if LETTER_RANGE.search(line) and "LC_ALL=C" not in line:
                yield f"{path}:{number}: a range of letters depends on the locale: {line.strip()}"


def pyflakes() -> list[str]:
    """Returns the pyflakes command of this system."""
    return ["pyflakes3" if shutil.which("pyflakes3") else "pyflakes"]


def rule_faults(top: Path) -> Iterable[str]:
    """Yields the Python files that silence a checker, change the import path or import tests into tools."""
    for path in python_files(top):
        name, text = path.relative_to(top).as_posix(), path.read_text(encoding="utf-8")
        if SILENCED.search(text):
            yield f"{name} silences a checker"
        if name != ENTRY and PATH_EDIT.search(text):
            yield f"{name} changes the import path; only {ENTRY} may"
        if name.startswith("tools/") and IMPORTS_TESTS.search(text):
            yield f"{name} imports from tests"


def imported_by(text: str) -> set[str]:
    """Returns the full names of the `tests` modules that a file may import."""
    found = set()
    for module, names, alone in IMPORTED.findall(text):
        found.add(module or alone)
        words = re.findall(r"\w+", re.sub(r"\bas\s+\w+", "", names))
        found |= {f"{module}.{word}" for word in words}
    return found


def unused_faults(top: Path, modules: Iterable[str]) -> Iterable[str]:
    """Yields the files of `tests/` that no runner runs and no other file imports or names, and
    those with tests that do not run.

    `modules` are the modules that the runner reads."""
    modules = set(modules)
    files = [path for path in python_files(top) if path.relative_to(top).parts[0] == "tests"]
    texts = {path.relative_to(top).as_posix(): path.read_text(encoding="utf-8") for path in files}
    imported = set().union(*map(imported_by, texts.values()))
    for name, text in texts.items():
        module = name.removesuffix(".py").replace("/", ".")
        if not name.endswith(".py") or name.endswith("__init__.py") or name == ENTRY or module in modules:
            continue
        if TEST_CLASS.search(text) and not name.startswith("tests/support/"):
            yield f"{name} has a test case, and the runner does not read it"
        is_called = any(Path(name).name in other for path, other in texts.items() if path != name)
        if module not in imported and not is_called:
            yield f"{name} is neither a test module nor imported by one"


def wrong_files(top: Path) -> None:
    """Writes a small tree that breaks each rule once."""
    texts = {
        "tools/a": "#!/usr/bin/env python3\nimport os  # " + "noqa\n",
        "tools/b.py": "import sys\nsys." + "path.append('x')\n",
        "tools/c.py": "from tests.support import harness\n",
        "tests/d.py": "class DTests(Test):\n    pass\n",
        "tests/e.py": "from tests.support import f as g, h\n",
        "tests/support/f.py": "import os\n",
        "tests/support/i.py": "x = 1\n",
    }
    for name, text in texts.items():
        (top / name).parent.mkdir(parents=True, exist_ok=True)
        (top / name).write_text(text, encoding="utf-8")


class LintTests(Test):
    """Tests of this checkout's sources."""

    def test_pyflakes(self):
        """pyflakes finds nothing in the Python files."""
        files = python_files(TOP)
        self.see(said_by(pyflakes(), files), len(files))

    def test_shellcheck(self):
        """shellcheck finds nothing in the launcher and CI's script."""
        files = shell_files(TOP)
        self.see(said_by(["shellcheck"], files), len(files))

    def test_letter_ranges(self):
        """No pattern of the launcher depends on the locale."""
        files = shell_files(TOP)
        self.see(letter_ranges(files), len(files))

    def test_import_rules(self):
        """No file silences a checker, changes the import path, or imports tests into tools."""
        self.see(rule_faults(TOP), len(python_files(TOP)))

    def test_each_file_is_run(self):
        """The runner reads each test file, and others below tests/ are imported."""
        self.see(unused_faults(TOP, runner.test_modules()))


class WrongFileTests(Test):
    """Files that break a rule are found."""

    def setUp(self):
        """Writes the files."""
        directory = tempfile.TemporaryDirectory(prefix="irv-lint-")
        self.addCleanup(directory.cleanup)
        self.top = Path(directory.name)
        wrong_files(self.top)

    def test_rules(self):
        """Each broken rule is found in its file."""
        found = [fault.split(" ")[0] for fault in rule_faults(self.top)]
        self.assertEqual(found, ["tools/a", "tools/b.py", "tools/c.py"])

    def test_files_that_no_test_uses(self):
        """An unused test and an unused file are found."""
        found = list(unused_faults(self.top, ["tests.e"]))
        self.assertEqual(found, [
            "tests/d.py has a test case, and the runner does not read it",
            "tests/d.py is neither a test module nor imported by one",
            "tests/support/i.py is neither a test module nor imported by one"])

    def test_pyflakes_remark(self):
        """pyflakes finds an unused import, also in a script without an ending."""
        found = said_by(pyflakes(), python_files(self.top))
        self.assertTrue(any("tools/a:" in line for line in found), found)
        self.assertTrue(any("support/f.py:" in line for line in found), found)

    def test_letter_range(self):
        """A range of letters is found, other brackets are not."""
        script = self.top / "script.bash"
        script.write_text("[[ $1 =~ ^[a-z] ]]\n[[ $1 = [[:upper:]]* && $2 = [0-9] ]]\n", encoding="utf-8")
        self.assertEqual([fault.split(":")[1] for fault in letter_ranges([script])], ["1"])

    def test_shellcheck_remark(self):
        """shellcheck finds a variable without quotes."""
        script = self.top / "script.bash"
        script.write_text("#!/usr/bin/env bash\nrm $1\n", encoding="utf-8")
        self.assertTrue(said_by(["shellcheck"], [script]))
