"""Splits a module in LLVM's language into parts, which compile in parallel.

A part owns some of the large functions that several others call. It has copies of the functions that these need, so
that calls are inlined as in one module, and only declarations of the large functions of other parts. Functions that
`main` does not need are left out.
"""
from __future__ import annotations

import collections
import re
from typing import Dict, Iterable, Iterator, List, Set

# the least lines with which a function that several call gets its own part; the compiler would hardly inline such a
# function into its callers
LARGE = 200
MAIN = "main"

_NAME = re.compile(r'@("(?:[^"\\]|\\.)*"|[\w.$-]+)')
_GROUP = re.compile(r"^attributes #(\d+) = \{(.*)\}")
_GROUP_OF = re.compile(r" #(\d+) \{$")
_INTERNAL, _SHARED, _DECLARED = "define internal ", "define hidden ", "declare hidden "


class Module:
    """A module: its constants and functions by name, with the names that each refers to, and the lines before and after
    them."""

    def __init__(self, lines: Iterable[str]):
        """Reads the module of a program. Raises ValueError if it has no `main`, or has mutable data, which cannot be
        copied."""
        self.head: List[str] = []
        self.tail: List[str] = []
        self.constants: Dict[str, str] = {}
        self.functions: Dict[str, List[str]] = {}
        self._needs: Dict[str, Set[str]] = {}
        self._read(lines)
        if MAIN not in self.functions:
            raise ValueError("the module has no " + MAIN)
        self._groups = {found.group(1): found.group(2) for found in map(_GROUP.match, self.head + self.tail) if found}

    def _read(self, lines: Iterable[str]) -> None:
        body: List[str] = []
        for line in lines:
            if body:
                body.append(line)
                if line.startswith("}"):
                    name = _name(body[0])
                    self.functions[name] = body
                    self._needs[name] = set(_NAME.findall("".join(body))) - {name}
                    body = []
            elif line.startswith("define "):
                body = [line]
            elif line.startswith("@"):
                name = _name(line)
                if " constant " not in line:
                    raise ValueError("the module has data that changes: " + name)
                self.constants[name] = line
                self._needs[name] = set(_NAME.findall(line)) - {name}
            else:
                (self.tail if self.functions else self.head).append(line)

    def attributes(self, name: str) -> str:
        """Returns the attributes of a function that a group gives it."""
        found = _GROUP_OF.search(self.functions[name][0].rstrip("\n"))
        return self._groups.get(found.group(1), "") if found else ""

    def needed(self, roots: Iterable[str], edge: Set[str]) -> Set[str]:
        """Returns the names that these functions need, including their own, without those that only functions of the
        edge need."""
        found = set(roots)
        waiting = list(found)
        while waiting:
            for name in self._needs.get(waiting.pop(), ()):
                if name in self._needs and name not in found:
                    found.add(name)
                    if name not in edge:
                        waiting.append(name)
        return found

    def large(self, among: Set[str]) -> Set[str]:
        """Returns `main` and the functions that get parts of their own: large ones that several call, and those that
        must not be inlined."""
        callers = collections.Counter(needed for name in among for needed in self._needs[name])

        def is_large(name: str) -> bool:
            attributes = self.attributes(name)
            shared = len(self.functions[name]) > LARGE and callers[name] > 1
            return "noinline" in attributes or shared and "alwaysinline" not in attributes

        return {MAIN} | {name for name in among if name in self.functions and is_large(name)}

    def size(self, names: Iterable[str]) -> int:
        """Returns the number of lines of these functions."""
        return sum(len(self.functions.get(name, ())) for name in names)

    def lines(self, own: Set[str], edge: Set[str]) -> Iterator[str]:
        """Yields a module with these functions, which all parts may call, private copies of what they need, and
        declarations of the other functions of the edge."""
        needed = self.needed(own, edge - own)
        yield from self.head
        yield from (line for name, line in self.constants.items() if name in needed)
        for name, body in self.functions.items():
            if name in own:
                yield body[0].replace(_INTERNAL, _SHARED, 1)
                yield from body[1:]
            elif name in needed and name in edge:
                yield _GROUP_OF.sub("", body[0].rstrip("\n")).replace(_INTERNAL, _DECLARED, 1) + "\n"
            elif name in needed:
                yield from body
        yield from self.tail


def _name(line: str) -> str:
    found = _NAME.search(line)
    if not found:
        raise ValueError("a definition without a name: " + line[:100])
    return found.group(1)


def shares(module: Module, count: int) -> List[Set[str]]:
    """Splits the large functions into `count` shares that need about the same number of lines, including copies."""
    edge = module.large(module.needed([MAIN], set()))
    needs = {name: module.needed([name], edge - {name}) - (edge - {name}) for name in edge}
    shared: List[Set[str]] = [set() for _ in range(count)]
    needed: List[Set[str]] = [set() for _ in range(count)]
    sizes = [0] * count
    # The largest first, each into the share that is then the smallest. The lines that a function adds count twice, so
    # that functions with the same needs end up together.
    for name in sorted(edge, key=lambda it: (-module.size(needs[it]), it)):
        added = [module.size(needs[name] - needed[k]) for k in range(count)]
        k = min(range(count), key=lambda it: sizes[it] + 2 * added[it])
        shared[k].add(name)
        needed[k] |= needs[name]
        sizes[k] += added[k]
    return [share for share in shared if share]


def parts(lines: Iterable[str], count: int) -> List[Iterator[str]]:
    """Splits a module into at most `count` parts; returns the lines of each. Raises ValueError if it cannot."""
    module = Module(lines)
    shared = shares(module, count)
    edge = set().union(*shared)
    return [module.lines(share, edge) for share in shared]
