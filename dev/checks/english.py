"""Plain English: words that have a plainer one are reported in pages, comments and messages; files that
dev/english_allowed lists as clean may have none.

dev/english_allowed has lines `clean PATTERN`, for files in which a finding fails the check, and lines `allow PATH:
WORDS`, for words that stay. A pattern that ends with a slash covers all files below that folder. Every other file is
only counted. `python3 -m dev.checks.english [PATH ..]` prints each finding with what to write instead.
"""
from __future__ import annotations

import io
import pathlib
import re
import subprocess
import sys
import tokenize
from collections import Counter
from collections.abc import Iterable, Iterator
from dataclasses import dataclass

from dev.checking import Findings
from dev.repository import TOP, path_of, read

NEEDS_PROGRAM = False
ALLOWED = ("dev", "english_allowed")
NOT_PROSE = ("tests/cases/", "dev/checks/english.py", "dev/tests/test_checks.py")      # data, and these words as data
FIRST = 20      # the most findings that the check prints

# Each pattern with what to write instead.
WORDS = [(re.compile(pattern, re.I), better) for pattern, better in (
    (r"\b(?:is|are|was|were|be) told\b|\btells?\b(?! apart)", "reports, returns, says, states"),
    (r"\bcomes? to (?:be|one outcome|what)\b|\bwhat (?:a|each|the) line comes to\b", "results in, is counted as"),
    (r"\bwant of memory\b|\brefused memory\b", "out of memory"),
    (r"\banew\b|\bonce more\b", "again"),
    (r"\bso (?:many|much) (?:\w+ )?(?:as|of the)\b", "N, the number of"),
    (r"\b(?:is|are|was|be) (?:not )?to be had\b|\bis had\b", "is (not) available"),
    (r"\bhas no place here\b", "out of scope:"),
    (r"\b(?:a|an) (?:row|line|file|word|test|table|job) (?:a|an|each) (?:mode|line|job|row|crate|vessel)\b",
     "one ... per ..."),
    (r"\bby the clock\b|\bof a processor\b", "elapsed, CPU"),
    (r"\breckon(?:s|ed)?\b", "compute, estimate"),
    (r"\b(?:nothing )?is said of\b|\bit is said\b|\bone says\b", "name who says what"),
    (r"\bpassed over\b", "skipped"),
    (r"\blooks? whether\b|\blooked at\b", "checks whether, checked"),
    (r"\bmend(?:ed|s)\b", "fixed"),
    (r"\bin place of\b", "instead of"),
    (r"\bof whom\b|\bof which\b", "split the sentence"),
    (r"\bno command line\b|\bthe words of the command line\b", "arguments"),
    (r"\bbehind (?:it|now|them|the (?:row|line|report|last|first|beginning|log))\b", "after"),
    (r"\bgoes on to\b|\bstands in place\b|\bstands? in the way\b", "continues, replaces, prevents"),
)]


@dataclass(frozen=True)
class Finding:
    """Words in a line of a file that have plainer ones."""

    path: str
    line: int
    words: str
    better: str

    def __str__(self) -> str:
        return f"{self.path}:{self.line}: {self.words} -> {self.better}"


def of_page(text: str) -> Iterator[tuple[int, str]]:
    """Yields the lines of a page that are not in a fenced block."""
    is_fenced = False
    for number, line in enumerate(text.splitlines(), 1):
        is_fenced ^= line.startswith("```")
        if not is_fenced:
            yield number, line


def of_python(text: str) -> Iterator[tuple[int, str]]:
    """Yields the comments and the texts of a Python file. A file that Python cannot read yields nothing: other checks
    report it."""
    try:
        for token in tokenize.generate_tokens(io.StringIO(text).readline):
            if token.type in (tokenize.COMMENT, tokenize.STRING):
                yield from ((token.start[0] + k, line) for k, line in enumerate(token.string.splitlines()))
    except (tokenize.TokenError, SyntaxError):
        return


def of_lines(text: str, mark: str) -> Iterator[tuple[int, str]]:
    """Yields the comments after a mark, and texts in double quotes, of a file in another language."""
    for number, line in enumerate(text.splitlines(), 1):
        for found in re.finditer(rf'"((?:[^"\\]|\\.)*)"|{mark}(.*)', line):
            yield number, found[1] or found[2] or ""


def prose(path: str, text: str) -> Iterator[tuple[int, str]]:
    """Yields what of a file a person reads as English, with the number of each line."""
    if path.endswith((".md", ".1")):
        return of_page(text)
    if path.endswith(".py") or re.match(r"#!.*python", text):
        return of_python(text)
    if path.endswith((".rt", ".js", ".c", ".h", ".cpp", ".rs")):
        return of_lines(text, "//")
    if path.endswith(".antt"):
        return of_lines(text, "--")
    return of_lines(text, "#") if text.startswith("#!") else iter(())


def findings(path: str, text: str) -> Iterator[Finding]:
    """Yields each line of a file with a word that has a plainer one; what is in backticks is code."""
    for number, line in prose(path, text):
        for pattern, better in WORDS:
            found = pattern.search(re.sub(r"`[^`]*`", "", line))
            if found:
                yield Finding(path, number, found[0], better)
                break


class Allowed:
    """What dev/english_allowed says."""

    def __init__(self, text: str):
        lines = [line.split(None, 1) for line in text.splitlines() if line.strip() and not line.startswith("#")]
        self.unknown = [
            " ".join(line)
            for line in lines
            if len(line) < 2 or line[0] not in ("clean", "allow") or line[0] == "allow" and ": " not in line[1]
        ]
        self._clean = [line[1].strip() for line in lines if line[0] == "clean" and len(line) == 2]
        self._words = {tuple(line[1].strip().split(": ", 1)) for line in lines if line[0] == "allow" and len(line) == 2}
        self.unused = set(self._words)

    def is_clean(self, path: str) -> bool:
        """Returns whether a file may have no finding."""
        return any(
            path.startswith(pattern) if pattern.endswith("/") else pathlib.PurePosixPath(path).match(pattern)
            for pattern in self._clean)

    def allows(self, finding: Finding) -> bool:
        """Returns whether a finding may stay, and notes that it is there."""
        key = (finding.path, finding.words)
        self.unused.discard(key)
        return key in self._words


def files() -> Iterable[str]:
    """Returns the files of the repository that git knows or would take, but for data."""
    listed = subprocess.run(["git", "-C", TOP, "ls-files", "-z", "--cached", "--others", "--exclude-standard"],
                            stdout=subprocess.PIPE, check=True, text=True).stdout
    return sorted(path for path in listed.split("\0") if path and not path.startswith(NOT_PROSE))


def text_of(path: str) -> str:
    """Returns the text of a file, empty if it is gone or holds no text."""
    try:
        with open(path_of(path), encoding="utf-8") as source:
            return source.read()
    except (OSError, UnicodeDecodeError):
        return ""


def area(path: str) -> str:
    """Returns what a file is counted under: its ending within crates/, otherwise its first folder or its name."""
    return "crates, " + path.rpartition(".")[2] if path.startswith("crates/") else path.partition("/")[0]


def check(found: Findings) -> None:
    """Adds a fault for each finding in a file that is listed as clean, and counts the others."""
    allowed, counts = Allowed(read(*ALLOWED)), Counter[str]()
    faults = []
    for path in files():
        for finding in findings(path, text_of(path)):
            if allowed.allows(finding):
                continue
            if allowed.is_clean(path):
                faults.append(str(finding))
            else:
                counts[area(path)] += 1
    for line in allowed.unknown:
        found.fault(f"dev/english_allowed: a line is neither `clean PATTERN` nor `allow PATH: WORDS`: {line}")
    for path, words in sorted(allowed.unused):
        found.fault(f"dev/english_allowed: {path} has no '{words}' any more")
    for fault in faults[:FIRST]:
        found.fault(fault)
    if faults[FIRST:]:
        found.fault(f"and {len(faults) - FIRST} more")
    if counts:
        found.note("in files that are not yet listed as clean: "
                   + ", ".join(f"{name} {count}" for name, count in sorted(counts.items())))


if __name__ == "__main__":
    for name in sys.argv[1:] or files():
        for one in findings(name, text_of(name)):
            print(one)
