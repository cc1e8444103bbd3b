"""Interlocking tables as CSV files."""
