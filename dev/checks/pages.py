"""The pages: their links, their sizes, the crates that docs/MAP.md names, and the form of the decisions.

Each link within the repository leads to a file, and to a heading of it if it names one. README.md has at most 6 KB. The
size of all pages is reported, with its aim of 160 KB. Each crate of tests in crates.txt has one row in docs/MAP.md,
whose drawing names each crate of the program and of the library. The decisions of docs/DECISIONS.md have their numbers
in order, and each says what it rules out.
"""
from __future__ import annotations

import os
import re
from collections.abc import Iterator

from dev.checking import Findings
from dev.pages import pages, without_blocks
from dev.repository import TOP, crates_of, listed_crates, read

NEEDS_PROGRAM = False
README_BYTES = 6 * 1024
PRODUCTS = ("colregs", "colregs_c")      # the program, and the library for callers in C
PAGES_BYTES = 160 * 1024      # an aim: it is reported, and fails nothing


def anchors(text: str) -> set[str]:
    """Returns the names by which the headings of a page can be linked to."""
    heads = re.findall(r"^#+ +(.*)$", without_blocks(text), re.M)
    return {
        re.sub(r"[^\w\- ]", "", re.sub(r"\[([^\]]*)\]\([^)]*\)", r"\1", head).lower()).replace(" ", "-")
        for head in heads
    }


def broken_links(page: str, text: str) -> Iterator[str]:
    """Yields what is wrong with each link of a page that leads nowhere."""
    for link in re.findall(r"\]\(([^)\s]+)\)", re.sub(r"`[^`\n]*`", "", without_blocks(text))):
        path, _, anchor = link.partition("#")
        if re.match(r"\w+:", link):
            continue
        target = os.path.normpath(os.path.join(os.path.dirname(page), path)) if path else page
        if not os.path.exists(os.path.join(TOP, target)):
            yield f"{page}: no file {link}"
        elif anchor and target.endswith(".md") and anchor not in anchors(read(target)):
            yield f"{page}: no heading {link}"


def crates_in_map(page: str, listed: dict[str, list[str]]) -> Iterator[str]:
    """Yields each crate that lacks its one row, or its place in the drawing."""
    program = {name for product in PRODUCTS for name in crates_of(product, listed)}
    tests = [name for name in listed if name not in program]
    drawing = re.search(r"^```\n(.*?)^```$", page, re.M | re.S)
    rows = re.findall(r"^\| `(\w+)` \|", page, re.M)
    for name in sorted(set(rows) ^ set(tests)) + sorted({row for row in rows if rows.count(row) > 1}):
        yield f"docs/MAP.md: {name} has {rows.count(name)} rows"
    for name in sorted(program):
        if not drawing or not re.search(rf"\b{name}\b", drawing[1]):
            yield f"docs/MAP.md: the drawing lacks {name}"


def decisions(page: str) -> Iterator[str]:
    """Yields each decision whose number is out of order, or that does not say what it rules out."""
    entries = re.findall(r"^(\d+)\. (.*?)(?=^\d+\. |^#|\Z)", page, re.M | re.S)
    for k, (number, text) in enumerate(entries):
        if int(number) != k + 1:
            yield f"docs/DECISIONS.md: {number} is at the place of {k + 1}"
        if not re.search(r"^ +\*Not:\* .*\Z", text.strip("\n"), re.M | re.S):
            yield f"docs/DECISIONS.md: {number} does not say what it rules out"


def check(found: Findings) -> None:
    """Adds a fault for each broken link, size and form."""
    sizes = {page: len(read(page).encode()) for page in pages()}
    for page in sizes:
        for fault in broken_links(page, read(page)):
            found.fault(fault)
    if sizes["README.md"] > README_BYTES:
        found.fault(f"README.md: {sizes['README.md']} bytes, and it may have {README_BYTES}")
    found.note(f"the pages have {sum(sizes.values())} bytes together, and the aim is {PAGES_BYTES}")
    for fault in [*crates_in_map(read("docs", "MAP.md"), listed_crates()), *decisions(read("docs", "DECISIONS.md"))]:
        found.fault(fault)
