"""Tests of the launcher, in small copies of the repository with fake toolchains."""
