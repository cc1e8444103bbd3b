"""Tests over real track layouts of Debian's packages, if installed or fetched.

The repository has no copy of the data. `corpus.list` has each file's expected result."""
