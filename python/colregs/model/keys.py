"""The keys that a scenario may have, with their units, taken from the table of docs/SCENARIO.md."""
import difflib
import functools
import os
import re
from collections.abc import Mapping
from typing import Any

from colregs.errors import Fault
from colregs.run.program import TOP

# the latter of a wheel
PAGES = os.path.join(TOP, "docs", "SCENARIO.md"), os.path.join(
    os.path.dirname(os.path.abspath(__file__)), "SCENARIO.md"
)
NO_KEYS = {"document", "formulas"}      # rows of the table for the text as a whole, and of all formulas together
PILOT = "pilot."      # the table that colregs-pilot and colregs-trials read (docs/BUILDER.md); the program ignores it


@functools.cache
def units() -> dict[str, str]:
    """Returns the unit of each key, as `window.tick`; a key outside the tables has no point."""
    try:
        with open(next(path for path in PAGES if os.path.exists(path)), encoding="utf-8") as source:
            page = source.read()
    except StopIteration:
        raise Fault(f"{PAGES[0]} is not here, from which the keys are taken") from None
    known: dict[str, str] = {}
    for row in re.findall(r"^\| [\d, to]+ \|(.*)\|$", page, re.M):
        cells, table = [cell.strip() for cell in row.split("|")], ""
        for key in re.findall(r"`([a-z0-9_.]+)`", cells[0]):
            key = table + key if key.startswith(".") else key
            table = key.partition(".")[0]
            if key not in NO_KEYS:
                known[key] = cells[-1]
    return known


def names_of(values: Mapping[str, Any]) -> list[str]:
    """Returns each key of a scenario, as `window.tick`, once."""
    found: list[str] = []
    for key, value in values.items():
        tables = value if isinstance(value, list) else [value]
        inner = [name for table in tables if isinstance(table, dict) for name in table]
        found += [f"{key}.{name}" for name in inner] or [key]
    return list(dict.fromkeys(found))


def tables() -> set[str]:
    """Returns the names of the tables."""
    return {key.partition(".")[0] for key in units() if "." in key}


def likeness(one: str, two: str) -> float:
    """Returns how alike two names are, from 0 to 1."""
    return difflib.SequenceMatcher(None, one.lower(), two.lower()).ratio()


def nearest(name: str) -> str | None:
    """Returns the key or table whose name is nearest to this one, or None; in its own table a key is a little
    nearer."""
    head, _, tail = name.rpartition(".")
    scores = {
        key: likeness(tail, key.rpartition(".")[2]) + (key.rpartition(".")[0] == head) / 10
        for key in [*units(), *tables()]
    }
    best = max(sorted(scores), key=lambda key: scores[key])
    return best if scores[best] >= 0.65 else None


def doubt(name: str) -> tuple[str, str] | None:
    """Returns what is wrong with a key, as the name of the finding and its words; or None."""
    if name in units() or name in tables() or name.startswith(PILOT):
        return None
    head, _, tail = name.rpartition(".")
    table = max(sorted(tables()), key=lambda known: likeness(head, known))
    if head and head not in tables() and likeness(head, table) >= 0.7:
        return "misspelt key", f"`{name}` is ignored: is its table `{table}`"
    elsewhere = [key for key in units() if key.rpartition(".")[2] == tail]
    if elsewhere:
        return "misplaced key", f"`{name}` is ignored: the key stands at `{elsewhere[0]}`"
    near = nearest(name)
    if near:
        return "misspelt key", f"`{name}` is ignored: is it `{near}`"
    return "unknown key", f"`{name}` is ignored: docs/SCENARIO.md has no such key"
