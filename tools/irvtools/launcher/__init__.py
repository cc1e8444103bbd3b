"""The launcher's modules: the proof with its progress, the unproved build, and the manual."""
