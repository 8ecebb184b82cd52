"""Repeats: no run of 12 lines or more stands twice in the code of the crates, and few do in their proofs.

`python3 -m dev.checks.repeats` prints each run. Blank lines, comments, imports, lists of modules and the lines of a
text do not count, and a clause of a contract counts as one line, however it is broken.
"""
from __future__ import annotations

import glob
import os
import sys
from collections import defaultdict
from collections.abc import Iterator
from dataclasses import dataclass

from dev.checking import Findings
from dev.checks.contracts import CLAUSE, depth_of
from dev.repository import TOP, path_of, read_if_there

NEEDS_PROGRAM = False
LENGTH = 12     # how many equal lines make a run
MOST_IN_PROOFS = 31
IGNORED = ("//", "--", "use ", "pub use ", "ghost use ", "mod ", "pub mod ", "#[cfg(test)]")

Line = tuple[int, str]      # its number in the file, and what counts of it


@dataclass(frozen=True, order=True)
class Place:
    """Lines of a file, by the number of the first and of the last."""

    path: str
    first: int
    last: int

    def __str__(self) -> str:
        return f"{self.path}:{self.first}-{self.last}"


def counted(text: str) -> list[Line]:
    """Returns the lines of a text that count."""
    found: list[Line] = []
    is_text, open_braces = False, 0
    for number, line in enumerate(text.splitlines(), 1):
        was_text, code = is_text, line.strip()
        is_text ^= line.replace('\\"', "").count('"') % 2 == 1
        if not code or code.startswith(IGNORED) or was_text and is_text:
            continue
        if open_braces > 0:
            found[-1] = found[-1][0], found[-1][1] + " " + code
        else:
            found.append((number, code))
        if open_braces > 0 or CLAUSE.match(line):
            open_braces += depth_of(line)
    return found


def place(path: str, lines: list[Line], at: int, length: int) -> Place:
    """Returns where `length` counted lines of a file stand, from the one at `at` on."""
    return Place(path, lines[at][0], lines[at + length - 1][0])


def repeats(texts: dict[str, str]) -> Iterator[tuple[Place, Place]]:
    """Yields each longest run of equal lines that stands at two places, none of them within the other."""
    files = {path: counted(text) for path, text in texts.items()}
    windows: dict[tuple[str, ...], list[tuple[str, int]]] = defaultdict(list)
    for path, lines in sorted(files.items()):
        for at in range(len(lines) - LENGTH + 1):
            windows[tuple(line for _, line in lines[at:at + LENGTH])].append((path, at))
    pairs = {(one, other) for places in windows.values() for k, one in enumerate(places) for other in places[k + 1:]}
    for (path, at), (other, there) in sorted(pairs):
        if ((path, at - 1), (other, there - 1)) in pairs or path == other and there < at + LENGTH:
            continue
        length = LENGTH
        while ((path, at + length - LENGTH + 1), (other, there + length - LENGTH + 1)) in pairs:
            length += 1
        yield place(path, files[path], at, length), place(other, files[other], there, length)


def texts_in(folder: str, ending: str) -> dict[str, str]:
    """Returns the texts of all files with this ending in a folder of each crate, by their paths."""
    found = glob.glob(path_of("crates", "*", folder, "**", "*" + ending), recursive=True)
    return {os.path.relpath(path, TOP): read_if_there(path) for path in found}


def check(found: Findings) -> None:
    """Adds a fault for each run in the code, and one if the proofs have too many."""
    for one, other in repeats(texts_in("src", ".rt")):
        found.fault(f"{one} stands again at {other}")
    count = sum(1 for _ in repeats(texts_in("proofs", ".antt")))
    found.note(f"{count} runs of {LENGTH} lines or more stand twice in proofs")
    if count > MOST_IN_PROOFS:
        found.fault(f"{count} runs stand twice in proofs, at most {MOST_IN_PROOFS} may")


if __name__ == "__main__":
    for part in (("src", ".rt"), ("proofs", ".antt")):
        for pair in repeats(texts_in(*part)):
            print(*pair)
    sys.exit(0)
