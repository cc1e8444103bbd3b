"""Tests of batch verification."""
