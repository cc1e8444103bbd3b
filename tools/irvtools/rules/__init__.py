"""A configuration's rules in words, and advice beyond them."""
