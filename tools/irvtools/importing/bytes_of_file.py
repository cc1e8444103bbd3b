"""Reads a file in chunks, decompressed, within a limit."""

import bz2
import gzip
import zlib
from pathlib import Path
from typing import Iterator

from irvtools.importing.faults import ImportFault

CHUNK_BYTES = 1 << 16
LIMIT_BYTES = 96 << 20


def base_name(name: str) -> str:
    """Returns a file name without its compression suffix."""
    for suffix in (".gz", ".bz2"):
        if name.endswith(suffix):
            return name[:-len(suffix)]
    return name


def opened(path: Path):
    """Opens a file for reading bytes, by its compression suffix."""
    if not path.exists():
        raise ImportFault(f"cannot read {path}: no such file")
    if not path.is_file():
        raise ImportFault(f"cannot read {path}: not a regular file")
    if path.name.endswith(".gz"):
        return gzip.open(path)
    if path.name.endswith(".bz2"):
        return bz2.open(path)
    return open(path, "rb")


def chunks(path: Path) -> Iterator[bytes]:
    """Yields a file's decompressed bytes. Fails above `LIMIT_BYTES`."""
    read = 0
    try:
        with opened(path) as stream:
            while True:
                chunk = stream.read(CHUNK_BYTES)
                if not chunk:
                    return
                read += len(chunk)
                if read > LIMIT_BYTES:
                    raise ImportFault(f"{path}: more than {LIMIT_BYTES} bytes after decompression; "
                                      f"cut a smaller area out of it")
                yield chunk
    except (EOFError, zlib.error, ValueError, OSError) as fault:
        raise ImportFault(f"cannot read {path} after {read} bytes: {fault}") from fault
