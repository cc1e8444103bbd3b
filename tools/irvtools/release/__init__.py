"""Releases of this version."""
