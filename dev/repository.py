"""The repository: its folder, its files, its crates, and the end of a command that cannot continue."""
from __future__ import annotations

import os
import sys
from typing import Dict, List

TOP = os.path.dirname(os.path.dirname(os.path.abspath(__file__)))
PROGRAM = "colregs"
# the exit status if there is no program to run: no run of the program ends with it (docs/REPORT.md)
NO_PROGRAM = 21


class Fault(Exception):
    """Why a command cannot continue, as one sentence for its user."""


def say(sentence: str) -> None:
    """Writes one line to standard error."""
    print("colregs: " + sentence, file=sys.stderr, flush=True)


def path_of(*names: str) -> str:
    """Returns the path of a file of the repository."""
    return os.path.join(TOP, *names)


def read(*names: str) -> str:
    """Reads a text file of the repository. Raises OSError if it does not exist."""
    with open(path_of(*names), encoding="utf-8", errors="replace") as source:
        return source.read()


def read_if_there(path: str) -> str:
    """Reads a text file, and returns an empty text if that fails."""
    try:
        with open(path, encoding="utf-8", errors="replace") as source:
            return source.read()
    except OSError:
        return ""


def listed_crates() -> Dict[str, List[str]]:
    """Reads crates.txt: each crate with the crates that its line names, in the order of the file. A line may have more
    words before its colon, such as `staticlib`."""
    listed: Dict[str, List[str]] = {}
    for line in read("crates.txt").splitlines():
        head, _, below = line.partition("#")[0].partition(":")
        if head.split():
            listed[head.split()[0]] = below.split()
    return listed


def crates_of(name: str, listed: Dict[str, List[str]]) -> List[str]:
    """Returns a crate and the crates of the repository below it, each after those that it names."""
    found: List[str] = []

    def take(crate: str) -> None:
        if crate in listed and crate not in found:
            for below in listed[crate]:
                take(below)
            found.append(crate)

    take(name)
    return found


def files_of(crate: str, *parts: str) -> List[str]:
    """Returns the paths of the files in these folders of a crate, such as `src`, in order."""
    walks = [os.walk(path_of("crates", crate, part)) for part in parts]
    return sorted(os.path.join(at, file) for walk in walks for at, _, files in walk for file in files)
