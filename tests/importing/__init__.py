"""Tests of `irv --import` on small maps and layouts."""
