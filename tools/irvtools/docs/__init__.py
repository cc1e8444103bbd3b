"""Checks and generators of documents."""
