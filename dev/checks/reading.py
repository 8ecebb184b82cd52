"""docs/READING.md names exactly the definitions that the clauses of `run` reach.

From the names in the contract of `colregs_program::run` it follows each definition to those that it cites, through the
`use` lines of `specs/`. READING.md must name every module that holds one of them, before the heading "Beside `run`",
and no other. A number in brackets after a name is the module's number of lines. `python3 -m dev.checks.reading` prints
the modules that are reached, with what is reached of each.
"""
from __future__ import annotations

import os
import re
from collections.abc import Iterator
from typing import NamedTuple

from dev.checking import Findings
from dev.repository import path_of, read

NEEDS_PROGRAM = False
BESIDE = "**Beside `run`**"

_USE = re.compile(
    r"^\s*(?:pub\s+)?(?:ghost\s+)?use\s+Rattle\.(\w+)\.specs\.([\w.]+?)(?:\.\{([^}]*)\}|\s+as\s+(\w+))?;?\s*$")
_PUBLISHED = re.compile(r"^pub use Rattle\.(\w+)\.specs\.([\w.]+)\s*$")
# A definition begins with a name before its arguments or its type, at the margin or in the margin of a module with
# arguments.
_BEGINS = re.compile(
    r"^(\s*)(?:abbrev |unfoldable |opaque )?(?:pub )?(?:abbrev |unfoldable )?(?:record |data )?(\S+)\s*(?:\(|\{|:)")
_WORD = re.compile(r"[^\s(){}\[\],;.\\]+")
_KEYWORDS = ("use", "pub", "where", "let")


class Place(NamedTuple):
    """A module of definitions: its crate, and its name below `specs`."""

    crate: str
    module: str

    def path(self) -> str:
        """Returns the path of the module's file within crates/."""
        return f"{self.crate}/specs/{self.module.replace('.', '/')}.antt"

    def is_ours(self) -> bool:
        """Returns whether the module is one of the repository that a person wrote."""
        return os.path.isdir(path_of("crates", self.crate)) and "declared" not in self.module.split(".")


class Unknown(Exception):
    """A module that has no file."""


def home(place: Place) -> Place:
    """Returns the module that holds the definitions of another, which may only publish them. Raises Unknown if there is
    none."""
    if os.path.exists(path_of("crates", place.path())):
        return place
    library = path_of("crates", place.crate, "specs", "Lib.antt")
    for line in read(library).splitlines() if os.path.exists(library) else []:
        found = _PUBLISHED.match(line)
        if found and found[2] == place.module and found[1] != place.crate:
            return home(Place(found[1], place.module))
    raise Unknown(f"{place.crate}.{place.module} has no file")


def symbols(name: str) -> set[str]:
    """Returns what of a name is in a text that uses it: the parts of an operator, or the name."""
    return {part for part in name.split("◌") if part} or {name}


class Module:
    """The definitions of one file: the text of each, and what its `use` lines bring."""

    def __init__(self, text: str):
        self._imported: dict[str, Place] = {}      # each name that is brought, with its module
        self._whole: dict[str, Place] = {}      # each module that is brought whole, by its name here
        self._text: dict[str, list[str]] = {}
        self._read(text)

    def _read(self, text: str) -> None:
        margin, name = 0, ""
        for line in text.splitlines():
            code = line.split("--")[0].rstrip()
            if self._brings(code):
                continue
            if code.startswith("module _"):
                margin, name = 2, ""
                continue
            begins = _BEGINS.match(code)
            if begins and len(begins[1]) in (0, margin) and begins[2] not in _KEYWORDS:
                margin = margin if begins[1] else 0
                name = begins[2]
            if name and code:
                self._text.setdefault(name, []).append(code)

    def _brings(self, code: str) -> bool:
        """Notes what a line brings, and returns whether it brings something of ours."""
        used = _USE.match(code)
        if not used or not Place(used[1], used[2]).is_ours():
            return False
        place = Place(used[1], used[2])
        self._imported.update({it.strip(): place for it in (used[3] or "").split(",") if it.strip()})
        if used[4]:
            self._whole[used[4]] = place
        return True

    def imported(self) -> Iterator[tuple[Place, str]]:
        """Yields each name that the file brings, with its module."""
        for name, place in self._imported.items():
            yield place, name

    def cites(self, name: str) -> Iterator[tuple[Place | None, str]]:
        """Yields the definitions that one of the file cites: the module of each, None for this one, and its name."""
        words: set[str] = set()
        for line in self._text.get(name, []):
            for module, cited in re.findall(r"(\w+)\.(\w+)", line):
                if module in self._whole:
                    yield self._whole[module], cited
            words.update(_WORD.findall(line))
        for other, place in self._imported.items():
            if symbols(other) <= words:
                yield place, other
        for other in self._text:
            if other != name and symbols(other) <= words:
                yield None, other


def reached() -> dict[Place, set[str]]:
    """Returns each module that `run` reaches, with the names that are reached of it. Raises Unknown if a module has no
    file."""
    modules: dict[Place, Module] = {}
    found: dict[Place, set[str]] = {}
    waiting = list(Module(read("crates", "colregs_program", "src", "program.rt")).imported())
    while waiting:
        place, name = waiting.pop()
        at = home(place)
        if name in found.setdefault(at, set()):
            continue
        found[at].add(name)
        if at not in modules:
            modules[at] = Module(read("crates", at.path()))
        waiting += [(other or at, cited) for other, cited in modules[at].cites(name)]
    return found


def listed(text: str) -> Iterator[tuple[Place, int | None]]:
    """Yields the modules that a text names, as `crate: Module, Module`, each with the number of lines that it states
    after the last one, if any. Raises Unknown if there is no such module."""
    for crate, names, lines in re.findall(r"`(\w+):\s+([\w/,\s]+)`(?:\s+\((\d+)\))?", text):
        for name in re.split(r",\s+", names):
            yield home(Place(crate, name.replace("/", "."))), int(lines) if lines else None


def check(found: Findings) -> None:
    """Adds a fault for each module that is missing, is not reached, or has not the number of lines that is stated."""
    text, _, beside = read("docs", "READING.md").partition(BESIDE)
    try:
        reach, named, more = reached(), dict(listed(text)), dict(listed(beside))
    except Unknown as fault:
        found.fault(str(fault))
        return
    for place in sorted(reach.keys() - named.keys()):
        found.fault(f"{place.path()} is reached, and not named: {' '.join(sorted(reach[place]))}")
    for place in sorted(named.keys() - reach.keys()):
        found.fault(f"{place.path()} is named, and not reached")
    for place, lines in {**named, **more}.items():
        if lines is not None:
            found.same(f"lines of {place.path()} by READING.md", lines, len(read("crates", place.path()).splitlines()))


if __name__ == "__main__":
    for at, names in sorted(reached().items()):
        print(at.path(), *sorted(names))
