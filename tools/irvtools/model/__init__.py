"""Plants, states, events and runs: the tools' own implementation of the model."""
