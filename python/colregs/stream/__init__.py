"""Endless streams: their sources, their day files, the runs over them, and their rows."""
