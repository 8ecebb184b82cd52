"""Each crate that a line of crates.txt lists is named by some source of the line's crate.

A crate that is listed and not named costs the gate time: `rt ci` computes the sum of a crate's sources, and of those
below it, along each path down to them, so each listed crate multiplies the paths. What a crate has by the types of
another need not be listed.
"""
from __future__ import annotations

import re

from dev.checking import Findings
from dev.repository import files_of, listed_crates, read

NEEDS_PROGRAM = False


def code_of(crate: str) -> str:
    """Returns all sources of a crate, without the lines that are comments."""
    code: list[str] = []
    for part, mark in (("src", "//"), ("specs", "--"), ("proofs", "--")):
        for path in files_of(crate, part):
            code += [line for line in read(path).splitlines(True) if not line.lstrip().startswith(mark)]
    return "".join(code)


def is_named(crate: str, code: str) -> bool:
    """Returns whether sources name a crate: as a module of definitions, or at the head of a path."""
    return re.search(rf"\bRattle\.{crate}\b|(?<![\w:.]){crate}::", code) is not None


def check(found: Findings) -> None:
    """Adds a fault for each crate that is listed and not named."""
    listed = listed_crates()
    for crate, below in listed.items():
        code = code_of(crate)
        for name in below:
            if name in listed and not is_named(name, code):
                found.fault(f"crates.txt: {crate} lists {name} and names it nowhere")
