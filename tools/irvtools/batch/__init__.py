"""Batch verification of many configurations."""
