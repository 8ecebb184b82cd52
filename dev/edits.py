"""Must-fail edits: each replaces one line of a crate by a wrong one, which the proofs must refuse.

The gate tries those in crates/NAME/must-fail. dev/edits/NAME has more of the same form, which would take the gate too
long; `python3 -m dev.try_edits` tries them.
"""
from __future__ import annotations

import os
from collections.abc import Callable, Iterator
from dataclasses import dataclass

from dev.repository import listed_crates, path_of, read

ENDING = ".edit"


def fault_in(edit: str, text_of: Callable[[str], str | None]) -> str:
    """Returns why an edit cannot be applied, or an empty text. `text_of` returns the text of a file of the crate, or
    None if it does not exist."""
    path, old, pairs = "", "", 0
    texts: dict[str, str] = {}
    for line in edit.splitlines():
        if line.startswith("file: "):
            path = line.removeprefix("file: ").strip()
            text = text_of(path)
            if text is None:
                return f"the crate has no file {path}"
            texts.setdefault(path, text)
        elif line.startswith("old: "):
            old = line.removeprefix("old: ")
        elif line.startswith("new:"):
            if not path or not old:
                return "a line `new:` is before any line `file:` or `old:`"
            count = texts[path].count(old)
            if count != 1:
                return f"`{old.strip()}` is in {path} {count} times"
            texts[path] = texts[path].replace(old, line.removeprefix("new:").removeprefix(" "))
            old, pairs = "", pairs + 1
    return "" if pairs else "it has no lines `old:` and `new:`"


@dataclass(frozen=True)
class Edit:
    """An edit of a crate: the path of its file in the repository."""

    crate: str
    path: str

    @property
    def name(self) -> str:
        """Returns the crate and the effect of the wrong line."""
        return f"{self.crate}/{os.path.basename(self.path).removesuffix(ENDING)}"

    def fault(self) -> str:
        """Returns why the edit cannot be applied, or an empty text. `rt ci` only warns of such an edit."""
        return fault_in(read(self.path), self.text_of)

    def text_of(self, path: str) -> str | None:
        """Returns the text of a file of the crate, or None if it does not exist."""
        try:
            return read("crates", self.crate, path)
        except OSError:
            return None


def edits_in(*folder: str) -> list[str]:
    """Returns the names of the edits in a folder, in order; none if it does not exist."""
    where = path_of(*folder)
    return sorted(name for name in os.listdir(where) if name.endswith(ENDING)) if os.path.isdir(where) else []


def of_the_gate(crate: str) -> list[Edit]:
    """Returns the edits of a crate that the gate tries."""
    return [Edit(crate, os.path.join("crates", crate, "must-fail", name))
            for name in edits_in("crates", crate, "must-fail")]


def by_hand(crate: str) -> list[Edit]:
    """Returns the edits of a crate that only a developer tries."""
    return [Edit(crate, os.path.join("dev", "edits", crate, name)) for name in edits_in("dev", "edits", crate)]


def all_edits() -> Iterator[Edit]:
    """Yields all edits of all crates."""
    for crate in listed_crates():
        yield from of_the_gate(crate)
        yield from by_hand(crate)
