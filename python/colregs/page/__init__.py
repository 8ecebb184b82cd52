"""Writes a case: its folder, page, map, database and pictures."""
