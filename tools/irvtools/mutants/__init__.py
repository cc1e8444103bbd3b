"""Mutants of functions, which the prover must refuse."""
