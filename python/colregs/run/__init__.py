"""Finds and runs the program, for all tools."""
