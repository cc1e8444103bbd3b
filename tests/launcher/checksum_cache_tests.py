"""Tests of the cached checksums of sources and programs."""

import os
import time

from tests.launcher.build_tests import has_built
from tests.launcher.repository_copy import call, copy_tests, write_scripts

SUMS = r"""#!/usr/bin/env bash
echo "sha256sum" >>@TOP@/summed
PATH=/bin:/usr/bin exec sha256sum "$@"
"""


def sums(top, *words):
    """Calls the launcher. Returns how often it read file contents, and the toolchain calls."""
    (top / "summed").write_text("")
    _, _, _, calls = call(top, *words)
    return len((top / "summed").read_text().splitlines()), calls


def settled(top):
    """Waits until no file is younger than a second, and has the launcher cache the checksums."""
    write_scripts(top, {"bin/sha256sum": SUMS})
    call(top, "--build")
    time.sleep(1.2)
    return sums(top, "check")


def reads_once(top):
    """Without changes no contents are read again."""
    first = settled(top)
    return first[0] > 0 and first[1] == [] and sums(top, "check") == (0, [])


def change_unseen_by_time(path, text):
    """Changes a file's contents, but not its length and modification time."""
    times = path.stat()
    assert len(text) == times.st_size
    path.write_text(text)
    os.utime(path, ns=(times.st_atime_ns, times.st_mtime_ns))


def sees_a_change(top):
    """The launcher detects changed contents of the same length, name and time. It also detects a
    file in a new directory, a removed file, a changed line of crates.txt and another program."""
    source, program = top / "crates/low/src/main.rt", top / "crates/irv/out/irv"
    source.write_text("// one")
    settled(top)
    changes = [lambda: change_unseen_by_time(source, "// two"),
               lambda: ((top / "crates/low/specs").mkdir(),
                        (top / "crates/low/specs/a").write_text("")),
               (top / "crates/low/specs/a").unlink,
               lambda: (top / "crates.txt").write_text("# \n" + (top / "crates.txt").read_text()
                                                       .replace("high: low middle", "high: low")),
               lambda: change_unseen_by_time(program, program.read_text().replace("slow", "fast"))]
    for change in changes:
        change()
        if not has_built(sums(top, "check")[1]):
            return False
        time.sleep(1.2)
        if sums(top, "check")[1] or sums(top, "check") != (0, []):
            return False
    return True


def caches_nothing_young(top):
    """A file younger than a second is not cached."""
    settled(top)
    later = time.time() + 1000
    os.utime(top / "crates/low/src/main.rt", (later, later))
    return [sums(top, "check")[0] > 0 for _ in range(3)] == [True] * 3


def works_without_cache(top):
    """If caching fails or the cache is broken, the answers are the same."""
    call(top, "--build")
    for text in ("", "x", "\n\n\n\n", "irv low\na\nb\nc\n"):
        (top / "out/checksums").unlink(missing_ok=True)
        (top / "out").mkdir(exist_ok=True)
        (top / "out/checksums").write_text(text)
        if call(top, "check") != (b"check\n", b"", 6, []):
            return False
    (top / "out/checksums").unlink()
    (top / "out").rmdir()
    (top / "out").write_text("")
    return call(top, "check") == (b"check\n", b"", 6, [])


ChecksumCacheTests = copy_tests("ChecksumCacheTests", (
    reads_once, sees_a_change, caches_nothing_young, works_without_cache))
