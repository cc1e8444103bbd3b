"""Compiled modules for the tools that tests call.

Tools write no compiled modules, so that nothing is left in the checkout. A call would compile all
that it imports."""

from __future__ import annotations

import compileall
import os
import sys
import sysconfig
from pathlib import Path

from irvtools.paths import TOP

LARGE = {"site-packages", "dist-packages", "test", "idlelib", "lib2to3", "tkinter", "ensurepip"}

# tests that call programs in Python with modules of their own, such as Snakemake: those would not
# find them compiled
OTHERS = "tests.batch.", "tests.transcripts"
compiled: list[str] = []        # the directory, if modules are compiled


def compile_tools(directory: Path) -> None:
    """Compiles the modules of the tools into a directory. The compiled standard library is linked
    there, because Python looks for all modules in one place."""
    library = Path(sysconfig.get_path("stdlib"))
    for depth in ("", "*/", "*/*/"):
        for cache in library.glob(f"{depth}__pycache__"):
            if not LARGE & set(cache.relative_to(library).parts):
                link_modules(cache, directory / cache.parent.relative_to(cache.anchor))
    before, sys.pycache_prefix = sys.pycache_prefix, str(directory)
    compileall.compile_dir(TOP / "tools/irvtools", quiet=2)
    sys.pycache_prefix = before
    compiled[:] = [str(directory)]


def use_compiled(module: str) -> None:
    """Has the tools that a test module calls use the compiled modules, unless it calls others too."""
    if compiled and not module.startswith(OTHERS):
        os.environ["PYTHONPYCACHEPREFIX"] = compiled[0]


def link_modules(cache: Path, target: Path) -> None:
    """Links the compiled modules of a directory of the standard library."""
    target.mkdir(parents=True, exist_ok=True)
    for file in cache.glob(f"*.{sys.implementation.cache_tag}.pyc"):
        (target / file.name).symlink_to(file)
