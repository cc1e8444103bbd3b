"""Track plans as SVG."""
