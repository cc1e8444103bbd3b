"""Tests of refused packages: the reason, and no changes."""

import subprocess
import tempfile
from pathlib import Path

from tests.support.package_calls import TOP, call, example
from tests.support.harness import test_case


def refusals(room):
    """Returns refused arguments, each with a part of the reason."""
    (room / "full").mkdir()
    (room / "full/old").write_text("kept")
    (room / "file").write_text("kept")
    (room / "to-empty").symlink_to(room / "elsewhere")
    (room / "other.txt").write_text("neither\n")
    return {("full",): "full is not empty; nothing is overwritten",
            ("file",): "file is not a directory; nothing is overwritten",
            ("to-empty",): "to-empty is not a directory; nothing is overwritten",
            ("none/new",): "none does not exist",
            ("",): "the directory's name is empty", (): "arguments are required: DIRECTORY",
            ("new", "two"): "unrecognized arguments: two",
            ("new", "--run"): "--run: expected one argument",
            ("new", "--run", "nowhere"): "cannot read --run nowhere",
            ("new", "--run", "other.txt"): "other.txt",
            ("new", "--depth", "17"): "--depth: '17' is not a whole number from 1 to 16",
            ("new", "--depth", "0"): "--depth: '0' is not a whole number",
            ("new", "--conflicts", "-1"): "--conflicts: ",
            ("new", "--search-seconds", "x"): "--search-seconds: 'x' is not a whole number",
            ("new", "--columns", "free"): "unrecognized arguments: --columns free",
            ("new", "--depth", "1", "--depth", "1"): "--depth is given twice",
            ("new", "--title", ""): "--title needs 1 to 200 printable characters",
            ("new", "--author", "a\nb"): "--author needs 1 to 200 printable characters",
            ("new", "--program", "nowhere"): "nowhere does not exist"}


def state_of(room):
    """Returns all names below a directory, with the files' contents."""
    return {path.relative_to(room).as_posix(): path.read_bytes() if path.is_file() else None
            for path in room.rglob("*")}


def check_refusals(program, _):
    """Each refusal has status 125 and its reason, and no file changes."""
    with tempfile.TemporaryDirectory(prefix="irv-test-package-") as name:
        room = Path(name)
        wanted = refusals(room)
        before = state_of(room)
        for words, why in wanted.items():
            done = call_in(room, program, words)
            if done.returncode != 125 or done.stdout or why not in done.stderr.decode():
                yield f"{words}: {done.returncode} {done.stderr.decode()!r}"
            if state_of(room) != before:
                yield f"{words}: something was changed"


def call_in(room, program, words):
    """Calls the tool in a directory."""
    own = [] if "--program" in words else ["--program", program]
    return subprocess.run([TOP / "tools/package", *words, *own], input=example("two-sections.json"), cwd=room,
                          capture_output=True, check=False)


def check_empty_directory(program, _):
    """An empty directory is accepted."""
    with tempfile.TemporaryDirectory(prefix="irv-test-package-") as name:
        directory = Path(name) / "empty"
        directory.mkdir()
        done = call(program, directory, example("line-with-boards.json"), "--solver-seconds", "0")
        if done.returncode or not (directory / "SHA256SUMS").is_file() or len(list(Path(name).iterdir())) != 1:
            yield f"{done.returncode} {done.stderr.decode()}"


RefusalTests = test_case("RefusalTests", (check_refusals, check_empty_directory))
