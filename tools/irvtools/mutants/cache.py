"""A cache of refused mutants, for the same sources on this machine."""

import hashlib
import json
import os
import tempfile
from pathlib import Path

OWN = Path(__file__).resolve().parent
JUDGES = ("edits", "functions", "prover_output", "rounds")     # the modules that judge a mutant


class Tried:
    """The cache: a file for each refused mutant, named by the checksum of all that its test read.
    Uncached mutants are tested again."""

    def __init__(self, toolchain):
        home = os.environ.get("XDG_CACHE_HOME") or os.path.expanduser("~/.cache")
        self.folder = Path(home) / "irv-mutants"
        own = hashlib.sha256(toolchain.version.encode())
        own.update(repr([os.stat(toolchain.prover)[6:9:2], str(toolchain.prover)]).encode())
        for name in JUDGES:
            own.update((OWN / f"{name}.py").read_bytes())
        self.own = own.hexdigest()

    def key(self, edit, crate_sum):
        """Returns the name of a mutant's cache file."""
        text = repr((self.own, crate_sum, edit.name, edit.changes))
        return hashlib.sha256(text.encode()).hexdigest()

    def has(self, key):
        """Returns whether this was refused before."""
        try:
            told = json.loads((self.folder / key).read_text())
            return told["key"] == key and self.folder.stat().st_uid == os.geteuid()
        except (OSError, ValueError, KeyError, TypeError):
            return False

    def keep(self, key, edit, reason):
        """Caches that a mutant was refused."""
        try:
            self.folder.mkdir(mode=0o700, parents=True, exist_ok=True)
            with tempfile.NamedTemporaryFile("w", dir=self.folder, delete=False) as file:
                json.dump({"key": key, "edit": edit.name, "reason": reason}, file)
            os.replace(file.name, self.folder / key)
        except OSError:
            pass
