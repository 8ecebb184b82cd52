"""Turns the module that the kit makes for `rt try` into the one that its build of a proved program compiles.

`rt try` compiles with checks for faults that a proof rules out: it marks each function for AddressSanitizer, calls a
check before each step that could go wrong, and fills each new local. It also omits the inlining attributes of the
sources. This module removes the checks and fills and restores the attributes.
"""
from __future__ import annotations

import collections
import os
import re
from typing import Dict, FrozenSet, Iterable, Iterator, List, Tuple

# The target processor of the kit's builds, by its clang name.
_PROCESSOR = '"target-cpu"="x86-64-v2"'
_PROBES = '"probe-stack"="inline-asm" "stack-probe-size"="3072"'

_ATTRIBUTE = re.compile(r"^\s*#\[(inline(?:\((always|never)\))?|cold)\]")
_FUNCTION = re.compile(r"^\s*(?:pub(?:\([a-z]+\))?\s+)?(?:const\s+)?(?:unsafe\s+)?fn\s+([\w«»]+)")
_INLINING = {"always": "alwaysinline", "never": "noinline", None: "inlinehint"}

_DEFINITION = re.compile(r'^define .*?@"([^"]+)"\(.*\) #0 \{$')
_CHECK = 'define internal void @"rattle-llvm-checks::'
_FILL = re.compile(r"^  call void @llvm\.memset\.p0\.i64\(ptr %r\d+, i8 -86, i64 \d+, i1 false\)$")
_FILLED = ", i8 -86, "
_TRAP = "  call void @llvm.trap()\n"

Attributes = FrozenSet[str]
NONE: Attributes = frozenset()


def attributes_in(lines: Iterable[str]) -> Iterator[Tuple[str, Attributes]]:
    """Yields the name of each function of a source file, with its inlining attributes as LLVM names them."""
    words = set()
    for line in lines:
        attribute, function = _ATTRIBUTE.match(line), _FUNCTION.match(line)
        if attribute:
            words.add("cold" if attribute.group(1) == "cold" else _INLINING[attribute.group(2)])
        elif function:
            yield function.group(1), frozenset(words)
            words = set()
        elif line.strip() and not line.strip().startswith(("#[", "//")):
            words = set()


class Inlining:
    """The inlining attributes that the sources give their functions."""

    def __init__(self) -> None:
        self._known: Dict[Tuple[str, str], List[Tuple[Tuple[str, ...], Attributes]]] = collections.defaultdict(list)

    def read(self, crate: str, folder: str) -> None:
        """Reads the sources of a crate in its folder `src`."""
        for at, _, files in os.walk(folder):
            for name in files:
                if name.endswith(".rt"):
                    path = os.path.join(at, name)
                    modules = tuple(it for it in os.path.relpath(path, folder)[:-3].split(os.sep)
                                    if it not in ("lib", "main", "mod"))
                    with open(path, encoding="utf-8", errors="replace") as lines:
                        for function, words in attributes_in(lines):
                            self._known[crate, function].append((modules, words))

    def of(self, symbol: str) -> Attributes:
        """Returns the attributes of a function by its name in the module, such as `crate::module::Type::name`.

        If several functions of a crate have the name, the one with the longest path of modules at the start of the
        symbol counts.
        """
        parts = re.sub(r"::<#.*?>", "", symbol).split("::")
        found = self._known.get((parts[0], parts[-1]), [])
        if len(found) == 1:
            return found[0][1]
        fitting = [(len(modules), words) for modules, words in found if tuple(parts[1:-1])[:len(modules)] == modules]
        return max(fitting, key=lambda it: it[0])[1] if fitting else NONE


class Groups:
    """The groups of attributes that functions refer to by number, beyond those of the module itself."""

    FIRST = 900

    def __init__(self) -> None:
        self._numbers: Dict[Attributes, int] = {}

    def number(self, words: Attributes) -> int:
        """Returns the number of the group of these attributes."""
        return self._numbers.setdefault(words, self.FIRST + len(self._numbers))

    def lines(self) -> Iterator[str]:
        """Yields the definitions of the groups."""
        for words, number in self._numbers.items():
            yield "attributes #%d = { %s nounwind %s %s }\n" % (number, " ".join(sorted(words)), _PROBES, _PROCESSOR)


def _as_built(line: str) -> str:
    """Returns a line of attributes in the form of a build without checks."""
    line = line.replace(" sanitize_address", "").replace('"target-cpu"="x86-64"', _PROCESSOR)
    line = re.sub(r' ?"frame-pointer"="all"', "", line)
    return re.sub(r"^(attributes #\d+ = \{) *\}", r"\1 nounwind }", line)


def without_checks(lines: Iterable[str], inlining: Inlining) -> Iterator[str]:
    """Yields the lines of a module in LLVM's language without its checks and fills, and with the inlining attributes of
    the sources."""
    groups, is_in_check = Groups(), False
    for line in lines:
        if is_in_check:
            is_in_check = not line.startswith("}")
        elif line.startswith("  "):
            if line != _TRAP and not (_FILLED in line and _FILL.match(line)):
                yield line
        elif line.startswith(_CHECK):
            is_in_check = True
            yield from (line.split("#")[0] + "alwaysinline {\n", "  ret void\n", "}\n")
        elif line.startswith("define "):
            found = _DEFINITION.match(line)
            words = inlining.of(found.group(1)) if found else NONE
            yield line.replace(" #0 {", " #%d {" % groups.number(words)) if words else line
        elif line.startswith("attributes #"):
            yield _as_built(line)
        else:
            yield line
    yield from groups.lines()
