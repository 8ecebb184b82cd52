"""Contracts fit a screen: no line of a `requires`, an `ensures` or a ghost definition is longer than 100 columns."""
from __future__ import annotations

import glob
import os
import re
from collections.abc import Iterator

from dev.checking import Findings
from dev.repository import TOP, path_of, read_if_there

NEEDS_PROGRAM = False
WIDTH = 100     # of the style of contracts; `rt fmt` leaves their lines as they are
CLAUSE = re.compile(r"\s*(?:requires|ensures|ghost (?!use)[\w ]+=)")


def depth_of(line: str) -> int:
    """Returns how many braces of a line stay open."""
    code = re.sub(r'"[^"]*"', "", line)
    return code.count("{") - code.count("}")


def long_lines(text: str) -> Iterator[int]:
    """Yields the numbers of the lines of contracts that are too long."""
    is_clause, depth = False, 0
    for number, line in enumerate(text.splitlines(), 1):
        is_clause = is_clause or bool(CLAUSE.match(line))
        if is_clause:
            if len(line) > WIDTH:
                yield number
            depth += depth_of(line)
            is_clause = depth > 0


def check(found: Findings) -> None:
    """Adds a fault for each line that is too long."""
    for path in sorted(glob.glob(path_of("crates", "*", "src", "**", "*.rt"), recursive=True)):
        for number in long_lines(read_if_there(path)):
            found.fault(f"{os.path.relpath(path, TOP)}:{number}: a line of a contract has more than {WIDTH} columns")
