"""The hashes of the sources, which show whether a program belongs to them."""
from __future__ import annotations

import hashlib
import os
from typing import Dict, Iterable, List, Optional

from .repository import Fault, PROGRAM, TOP, crates_of, files_of, listed_crates, path_of, read_if_there


def sum_of(path: str) -> str:
    """Returns the SHA-256 of a file, in hexadecimal digits. Raises OSError if it is unreadable."""
    with open(path, "rb") as source:
        return hashlib.sha256(source.read()).hexdigest()


def sums(*parts: str) -> Dict[str, str]:
    """Returns the hash of each source of the program: crates.txt, and the files in these folders of its crates, by
    their paths in the repository."""
    listed = listed_crates()
    paths = [path_of("crates.txt"), *[file for crate in crates_of(PROGRAM, listed) for file in files_of(crate, *parts)]]
    return {os.path.relpath(path, TOP): sum_of(path) for path in paths}


def times(paths: Iterable[str]) -> Dict[str, int]:
    """Returns when each of these files of the repository changed last, by the time that the system keeps and no tool
    sets. It shows a change that was undone. A file that does not exist is left out."""
    found = {}
    for path in paths:
        try:
            found[path] = os.stat(path_of(path)).st_ctime_ns
        except FileNotFoundError:
            pass
    return found


class Unchanged:
    """The sources of the program at one moment, to notice if one changes."""

    def __init__(self) -> None:
        self.sums = sums("src")
        self._times = times(self.sums)

    def confirm(self) -> None:
        """Raises Fault if a source was changed, added or removed since that moment, even if the change was undone."""
        now = sums("src")
        known = {**self.sums, **now}
        later = times(known)
        for path in sorted(known):
            if self.sums.get(path) != now.get(path) or self._times.get(path) != later.get(path):
                raise Fault("cannot build: %s changed during the build; run the command again" % path)


def as_text(known: Dict[str, str]) -> str:
    """Returns sums in the form that `sha256sum --check` reads."""
    return "".join("%s  %s\n" % (value, path) for path, value in known.items())


def as_sums(text: str) -> Dict[str, str]:
    """Parses sums in that form."""
    return {path: value for value, _, path in (line.partition("  ") for line in text.splitlines())}


class Record:
    """The record of a proved program: a file next to it, with the hashes of its sources and its own."""

    def __init__(self, program: str):
        self._program, self._path = program, program + ".sums"

    def write(self, sources: Dict[str, str], made: str) -> None:
        """Records the sources of the program, which is still at the path `made`."""
        with open(self._path + ".new", "w", encoding="utf-8") as out:
            out.write(as_text({**sources, os.path.relpath(self._program, TOP): sum_of(made)}))
        os.replace(self._path + ".new", self._path)

    def changed(self) -> Optional[List[str]]:
        """Returns the sources that changed since the program was proved, or None without a record of this program."""
        recorded = as_sums(read_if_there(self._path))
        if recorded.pop(os.path.relpath(self._program, TOP), None) != sum_of(self._program):
            return None
        now = sums("src", "specs", "proofs")
        return sorted(path for path in {**recorded, **now} if recorded.get(path) != now.get(path))
