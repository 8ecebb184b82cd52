"""The checks of the repository, one module each. A module has NEEDS_PROGRAM, and `check(found)`, which adds to `found`
what is wrong."""
