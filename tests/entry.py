"""Makes the packages `tests` and `irvtools` importable for a script of this directory, and runs it.

No other module changes the import path."""

import os
import sys
from pathlib import Path

TOP = Path(__file__).resolve().parent.parent
sys.dont_write_bytecode = True
sys.path[:1] = [str(TOP), str(TOP / "tools")]       # this directory has names of standard modules
os.environ["PYTHONDONTWRITEBYTECODE"] = "1"


def run(main):
    """Ends with the exit status of a script's main function."""
    sys.exit(main(sys.argv[1:]))
