#!/usr/bin/env python3
"""Proves and builds the program: see irvtools/launcher/prove_program.py."""

import sys

from irvtools.launcher.prove_program import main

if __name__ == "__main__":
    sys.exit(main())
