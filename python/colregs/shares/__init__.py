"""Splits a long audit into shares: plans them, runs them, and joins their reports."""
