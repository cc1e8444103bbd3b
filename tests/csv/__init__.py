"""Tests of the CSV import and export."""
