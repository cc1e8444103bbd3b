"""Tests of the HTML report and of the search."""
