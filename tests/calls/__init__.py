"""Tests of the program's calls and of verdicts on its answers."""
