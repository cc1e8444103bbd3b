"""Checksums of sources: git's tree identifier, and the launcher's checksum."""

import hashlib
import io
import os
import re
import tarfile
from pathlib import PurePosixPath


def sha256(data):
    """Returns the SHA-256 checksum of bytes."""
    return hashlib.sha256(data).hexdigest()


def git_object(kind, data):
    """Returns git's hash of an object."""
    return hashlib.sha1(f"{kind} {len(data)}\0".encode() + data)


def tree_of(files):
    """Returns git's tree identifier of files, given as (mode, bytes) by name."""
    names, lower = {}, {}
    for name, (mode, data) in files.items():
        first, _, rest = name.partition("/")
        if rest:
            lower.setdefault(first, {})[rest] = mode, data
        else:
            rights = "100755" if mode & 0o100 else "100644"
            names[first] = rights, git_object("blob", data).digest()
    for name, below in lower.items():
        names[name] = "40000", bytes.fromhex(tree_of(below))
    order = sorted(names, key=lambda name: os.fsencode(name + "/" * (name in lower)))
    return git_object("tree", b"".join(
        names[name][0].encode() + b" " + os.fsencode(name) + b"\0" + names[name][1]
        for name in order)).hexdigest()


def sum_of_sources(files):
    """Returns the checksum of the program's sources, as `./irv --version` prints it, or `None`
    without a crates.txt."""
    if "crates.txt" not in files:
        return None
    lower = dict(line.split(":", 1) for line in files["crates.txt"][1].decode().splitlines()
                 if re.match(r"[a-z][^:]*:", line))
    seen, left = set(), ["irv"]
    while left:
        name = left.pop()
        if name in lower and name not in seen:
            seen.add(name)
            left += lower[name].split()
    lines = sorted(f"{name}:{lower[name]}\n" for name in seen)
    parts = {f"crates/{name}/{part}" for name in seen for part in ("src", "specs", "proofs")}
    lines += [f"{sha256(files[name][1])}  {name}\n" for name in sorted(files, key=os.fsencode)
              if "/".join(name.split("/")[:3]) in parts and name.count("/") > 2]
    return sha256("".join(lines).encode())


def files_of(archive):
    """Returns a tar archive's files as (mode, bytes), by name below its directory."""
    found = {}
    with tarfile.open(fileobj=io.BytesIO(archive)) as tar:
        for member in tar:
            name = PurePosixPath(member.name)
            if member.isfile() and not name.is_absolute() and ".." not in name.parts:
                found["/".join(name.parts[1:])] = member.mode, tar.extractfile(member).read()
    return found
