"""Random search for a run to a hazard."""
