"""Explains refusals on the terminal, with advice."""
