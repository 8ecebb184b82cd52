"""Starts a command from a clone: `tools/NAME` calls `start` with its name. An older Python can read this file, and ends
with one plain sentence."""
import sys

LEAST = (3, 11)


def start(name: str) -> None:
    """Runs the command `name`, a module of `colregs.cli`, and leaves with its status."""
    if sys.version_info < LEAST:
        sys.exit("%s: Python %d.%d or later is needed, and this is Python %d.%d" %
                 ((name,) + LEAST + sys.version_info[:2]))
    import importlib
    importlib.import_module("colregs.cli." + name).command()
