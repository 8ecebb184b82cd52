"""Each must-fail edit can be applied: its file is there, and the line that it changes is in it once.

`rt ci` only warns of an edit that cannot be applied, and those in dev/edits are not tried by the gate.
"""
from __future__ import annotations

import os
from collections import Counter

from dev.checking import Findings
from dev.edits import all_edits
from dev.repository import listed_crates, path_of

NEEDS_PROGRAM = False


def check(found: Findings) -> None:
    """Adds a fault for each edit that cannot be applied, and for each of a crate that does not exist."""
    edits = list(all_edits())
    for edit in edits:
        if fault := edit.fault():
            found.fault(f"{edit.path}: {fault}")
    for name, count in Counter(edit.name for edit in edits).items():
        if count > 1:
            found.fault(f"{name} is both an edit of the gate and a further one")
    folder = path_of("dev", "edits")
    for name in sorted(set(os.listdir(folder) if os.path.isdir(folder) else ()) - set(listed_crates())):
        found.fault(f"dev/edits/{name}: there is no such crate")
