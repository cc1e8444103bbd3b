"""The interactive simulator."""
