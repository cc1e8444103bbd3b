"""The HTML report of a configuration."""
