"""Calls of the program, and its answers."""
