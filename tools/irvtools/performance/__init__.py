"""Measures the program, and writes the performance page."""
