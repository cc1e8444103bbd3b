"""Tests of sentences and advice on the terminal."""
