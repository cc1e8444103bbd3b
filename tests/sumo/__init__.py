"""Tests of `irv --sumo`: the export, and its comparison."""
