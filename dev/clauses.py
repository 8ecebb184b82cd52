"""Copies sources without the clauses of their functions, which the kit reads in less time.

A clause is what a function requires or ensures. It is for the proof alone: without clauses the kit makes the same
module, to the byte. The clauses of a function with a ghost parameter stay, since the kit refuses such a parameter
without one. The lines keep their numbers.
"""
from __future__ import annotations

import os
import re

# Each branch begins with a letter or a sign, by which the search passes over the others fast.
_TEXT = (r"//[^\n]*|r(?P<hashes>\#*)" r'".*?"(?P=hashes)|"(?:[^"\\]|\\.)*"|' r"'(?:[^\\'\n]|\\(?:'|[^'\n]+))'")
_HEAD = r"(?<![\w.]%s)\b\*?\s*(?:[\w«»⁻-]+\s*)?\{"
_TOKEN = re.compile(
    _TEXT + r"|ghost\s+use\b[^;]*;|ghost(?<!\wghost)(?P<ghost>\s+[^\s:={]+\s*[:=]\s*\{)"
    + "".join("|%s(?P<%s>%s)" % (word, word, _HEAD % word) for word in ("requires", "ensures")), re.S)
_BRACE = re.compile(_TEXT + r"|\{|\}", re.S)
_MORE = re.compile(r"\s*(?:=|by)\s*\{")
_NEXT = re.compile(r"\s*(?:requires|ensures)\b\*?\s*(?:[\w«»⁻-]+\s*)?\{")


def _end(text: str, begin: int) -> int:
    """Returns where the braces end that were opened before this place. Raises ValueError if they do not end."""
    depth = 1
    for found in _BRACE.finditer(text, begin):
        depth += {"{": 1, "}": -1}.get(found.group(), 0)
        if not depth:
            return found.end()
    raise ValueError("a brace is not closed")


def without_clauses(text: str) -> str:
    """Returns a source without its clauses. Raises ValueError if it cannot be read."""
    if "/*" in text:
        return text      # such comments may be nested
    kept, after = [], 0
    found = _TOKEN.search(text)
    while found:
        end = found.end()
        if found.lastgroup in ("requires", "ensures"):
            end = _end(text, end)
            kept += [text[after:found.start()], "\n" * text.count("\n", found.start(), end)]
            after = end
        elif found.lastgroup == "ghost":
            end = _end(text, end)
            more = _MORE.match(text, end) or _NEXT.match(text, end)
            while more:
                end = _end(text, more.end())
                more = _MORE.match(text, end) or _NEXT.match(text, end)
        found = _TOKEN.search(text, end)
    return "".join([*kept, text[after:]])


def copy_without_clauses(folder: str, to: str) -> None:
    """Copies the sources in a folder to a new one, without their clauses. Raises ValueError if one cannot be read."""
    for at, _, files in os.walk(folder):
        there = os.path.join(to, os.path.relpath(at, folder))
        os.makedirs(there)
        for name in files:
            with open(os.path.join(at, name), encoding="utf-8", newline="") as source:
                text = source.read()
            with open(os.path.join(there, name), "w", encoding="utf-8", newline="") as out:
                out.write(without_clauses(text) if name.endswith(".rt") else text)
