"""Paths in the checkout for several tools."""

from pathlib import Path

TOP = Path(__file__).resolve().parents[2]
TOOLS = TOP / "tools"
PROGRAM = TOP / "crates/irv/out/irv"
