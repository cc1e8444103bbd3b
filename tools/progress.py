#!/usr/bin/env python3
"""Prints the progress of the proof: see irvtools/launcher/progress.py."""

import sys

from irvtools.launcher.progress import main

if __name__ == "__main__":
    sys.exit(main())
