"""Tries the must-fail edits that would take the gate too long: python3 -m dev.try_edits [CRATE ..]

`rt ci` proves a crate again to try its edits, so crates/NAME/must-fail has only those of the wrong programs in
docs/PROVED.md, or one, or none. dev/edits/NAME has the others. This command copies the sources with these edits in
must-fail, and runs `rt must-fail` there. Try the edits of a crate after changing its contracts, and all edits before a
release, which takes about an hour on four processors. The exit status is 1 if the proofs accepted an edit, or if an
edit could not be tried.
"""
from __future__ import annotations

import argparse
import os
import shutil
import subprocess
import sys
import tempfile

from dev.edits import by_hand
from dev.kit import SETTINGS
from dev.repository import listed_crates, path_of


def copy_with_edits(room: str, wanted: list[str]) -> None:
    """Copies the sources into a folder. There, each wanted crate has its further edits instead of those of the gate."""
    for name in ("crates.txt", "HANDLES"):
        shutil.copy(path_of(name), room)
    shutil.copytree(path_of("crates"), os.path.join(room, "crates"), ignore=shutil.ignore_patterns("out", "must-fail"))
    for crate in wanted:
        folder = os.path.join(room, "crates", crate, "must-fail")
        os.mkdir(folder)
        for edit in by_hand(crate):
            shutil.copy(path_of(edit.path), folder)


def main() -> int:
    """Tries the edits, and returns the exit status."""
    parser = argparse.ArgumentParser(prog="try_edits", description=__doc__,
                                     formatter_class=argparse.RawDescriptionHelpFormatter)
    parser.add_argument("names", metavar="CRATE", nargs="*", help="the crates with the edits to try (default: all)")
    given = parser.parse_args()
    listed = listed_crates()
    unknown = sorted(set(given.names) - set(listed))
    if unknown:
        parser.error(f"there is no crate {unknown[0]}")
    wanted = [crate for crate in given.names or listed if by_hand(crate)]
    if not wanted:
        print("try_edits: these crates have no further edits")
        return 0
    with tempfile.TemporaryDirectory(prefix="edits-") as room:
        copy_with_edits(room, wanted)
        return subprocess.run(["rt", "must-fail", *wanted], cwd=room, env=SETTINGS).returncode


if __name__ == "__main__":
    sys.exit(main())
