"""Generated configurations, for tests and measurements."""
