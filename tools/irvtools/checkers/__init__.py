"""Independent checkers of certificates and refutations."""
