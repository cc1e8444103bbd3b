"""This checkout's files, and an archive of them with the same bytes on each machine."""

from __future__ import annotations

import bz2
import io
import os
import subprocess
import tarfile
from pathlib import Path

from irvtools.package.source_checksums import tree_of
from irvtools.paths import TOP

LEFT_OUT = {"out", "__pycache__", ".git"}       # not sources
Files = dict[str, "tuple[int, bytes]"]


def names_of(top: Path = TOP) -> list[str]:
    """Returns the names of the sources below `top`: those that git knows, or outside a clone all
    except built ones."""
    listed = subprocess.run(["git", "ls-files", "-z", "--", "."], cwd=top, capture_output=True,
                            check=False)
    if listed.returncode == 0 and (top / ".git").exists():
        names = [os.fsdecode(name) for name in listed.stdout.split(b"\0") if name]
        return sorted(name for name in names if (top / name).is_file())
    found = []
    for place, directories, files in os.walk(top):
        directories[:] = [name for name in directories if name not in LEFT_OUT]
        found += [os.path.relpath(os.path.join(place, name), top) for name in files]
    return sorted(found)


def files_here(top: Path = TOP) -> Files:
    """Returns the mode and bytes of each source below `top`, by name."""
    files = {name: top / name for name in names_of(top)}
    return {name: (0o755 if file.stat().st_mode & 0o100 else 0o644, file.read_bytes())
            for name, file in files.items()}


def archive_of(files: Files, version: str) -> bytes:
    """Returns an archive of files in the directory irv-VERSION, without times and owners."""
    data = io.BytesIO()
    with tarfile.open(fileobj=data, mode="w", format=tarfile.PAX_FORMAT) as tar:
        for name in sorted(files):
            mode, content = files[name]
            member = tarfile.TarInfo(f"irv-{version}/{name}")
            member.mode, member.size = mode, len(content)
            tar.addfile(member, io.BytesIO(content))
    return bz2.compress(data.getvalue(), 9)


def tree_here() -> str:
    """Returns git's tree identifier of this checkout's sources."""
    return tree_of(files_here())
