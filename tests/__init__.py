"""The tests of `irv` and its tools; `tests/run` runs them."""
