"""Makes one page of all crates for `dev/doc`: each crate's description, and its public items with their contracts."""
from __future__ import annotations

import argparse
import html
import os
import re
import sys
from collections.abc import Iterator
from dataclasses import dataclass, field

from dev.repository import files_of, listed_crates, path_of, read

STYLE = "body{max-width:60em;margin:2em auto;font-family:sans-serif}pre{background:#f4f4f4;padding:.5em;overflow:auto}"
_ITEM = re.compile(r"^( *)(?:pub )?(?:const |unsafe |extern \"C\" )*(fn|struct|enum|trait|const|ghost(?! use)) (\w+)")
_CLAUSE = re.compile(r"^ *(?:requires|ensures|decreases)\b")
_IMPL = re.compile(r"^impl\b.*?(\w+)(?:<[^{]*>)?(?: where .*)? \{")


@dataclass
class Item:
    """A public item: its kind and name, its doc comment, its text without a body, and the items in it."""

    kind: str
    name: str
    doc: list[str]
    text: list[str]
    inner: list[Item] = field(default_factory=list)


def head_of(text: str) -> list[str]:
    """Returns the lines of the doc comment at the head of a file."""
    return [line[4:] for line in text.splitlines() if line.startswith("//!")]


def contract(lines: list[str], at: int) -> list[str]:
    """Returns the lines of a function from its first one, with its clauses but without its body."""
    found: list[str] = []
    depth, in_clauses = 0, False
    for line in lines[at:]:
        word = line.strip()
        in_clauses = in_clauses or bool(_CLAUSE.match(line))
        if depth == 0 and word in ("{", "{}"):
            break
        found.append(line)
        if not in_clauses and line.endswith("{"):
            found[-1] = line.removesuffix("{").rstrip()
            break
        depth += (line.count("{") - line.count("}")) if in_clauses else 0
        if depth == 0 and word.endswith(";"):
            break
    return found


def block(lines: list[str], at: int) -> list[str]:
    """Returns the lines of a type or a constant: up to the brace at its margin, or one line."""
    if lines[at].rstrip().endswith((";", "}")):
        return [lines[at]]
    margin = len(lines[at]) - len(lines[at].lstrip())
    end = next((k for k in range(at + 1, len(lines)) if lines[k].startswith(" " * margin + "}")), at)
    return lines[at:end + 1]


def without_private(lines: list[str]) -> list[str]:
    """Returns the lines of a `struct` without its private fields and their doc comments."""
    found, doc = lines[:1], list[str]()
    for line in lines[1:-1]:
        if "pub " in line:
            found += [*doc, line]
        doc = [*doc, line] if line.strip().startswith("///") else []
    return found + lines[1:][-1:]


def text_of(kind: str, lines: list[str], at: int) -> list[str]:
    """Returns the text of an item from its first line."""
    if kind == "fn":
        return contract(lines, at)
    if kind == "trait":
        return [lines[at]]
    return without_private(block(lines, at)) if kind == "struct" else block(lines, at)


def doc_before(lines: list[str], at: int) -> list[str]:
    """Returns the doc comment above a line, past its attributes."""
    found: list[str] = []
    for line in reversed(lines[:at]):
        word = line.strip()
        if word.startswith("///"):
            found.append(word[4:])
        elif not word.startswith("#["):
            break
    return found[::-1]


def items(text: str) -> Iterator[Item]:
    """Yields the public items of a file; those of an `impl` or a trait are within the item of their type."""
    types: dict[str, Item] = {}
    lines, within = text.splitlines(), ""
    for at, line in enumerate(lines):
        if line.startswith("}"):
            within = ""
        if found := _IMPL.match(line):
            within = "" if " for " in line else found[1]
            continue
        found = _ITEM.match(line)
        is_trait = within in types and types[within].kind == "trait"
        if not found or not ("pub " in line[:len(found[0])] or is_trait):
            continue
        item = Item(found[2], found[3], doc_before(lines, at), text_of(found[2], lines, at))
        if found[1] and within:
            types.setdefault(within, Item("type", within, [], [])).inner.append(item)
        elif not found[1]:
            item.inner = types[item.name].inner if item.name in types else []
            types[item.name] = item
            within = item.name if item.kind == "trait" else within
            yield item


def root_of(crate: str) -> str:
    """Returns the text of a crate's root file."""
    return next(read(path) for path in files_of(crate, "src") if os.path.basename(path) in ("lib.rt", "main.rt"))


def public_names(lib: str) -> Iterator[tuple[str, str]]:
    """Yields the public names of `lib.rt`: the first part of each path, and the name, `*` for a whole module."""
    for module in re.findall(r"^pub mod (\w+);", lib, re.M):
        yield module, "*"
    for path, names in re.findall(r"^pub use ((?:\w+::)+)(\{[^}]*\}|\w+(?: as \w+)?);", lib, re.M):
        for name in re.split(r",\s*", names.strip("{} \n").rstrip(",")):
            yield path.removeprefix("self::").split("::")[0], name.split(" as ")[0].strip()


def of_crate(crate: str) -> tuple[list[Item], dict[str, list[str]]]:
    """Returns the public items of a crate in the order in which it publishes them, and the names that it publishes from
    other crates."""
    here = {os.path.relpath(path, path_of("crates", crate, "src")): read(path) for path in files_of(crate, "src")}
    modules = {os.path.splitext(path)[0].replace("/mod", "").replace("/", "::"): list(items(text))
               for path, text in here.items()}
    found, others = list(modules.get("lib", [])), dict[str, list[str]]()
    for module, name in public_names(root_of(crate)):
        parts = [it for key, each in modules.items() if key.split("::")[0] == module for it in each]
        found += [it for it in parts if name in ("*", it.name)]
        if not parts:
            others.setdefault(module, []).append(name)
    return found, others


def paragraphs(lines: list[str]) -> str:
    """Returns a doc comment as HTML: paragraphs, and items of lists."""
    text = html.escape("\n".join(lines))
    text = re.sub(r"`([^`]*)`", r"<code>\1</code>", text)
    return "".join(f"<p>{part}</p>\n" for part in re.split(r"\n\n|\n(?=- )", text) if part.strip())


def section(crate: str, below: list[str]) -> Iterator[str]:
    """Yields the HTML of a crate."""
    published, others = of_crate(crate)
    yield f'<h2 id="{crate}">{crate}</h2>\n' + paragraphs(head_of(root_of(crate)))
    links = ", ".join(f'<a href="#{name}">{name}</a>' for name in below if os.path.isdir(path_of("crates", name)))
    yield f"<p>Uses: {links or 'no other crate'}.</p>\n"
    for other, names in others.items():
        yield f'<p>Also <code>{", ".join(names)}</code> of <a href="#{other}">{other}</a>.</p>\n'
    for item in published:
        yield f'<h3 id="{crate}.{item.name}">{item.name}</h3>\n'
        for each in [item, *item.inner]:
            yield paragraphs(each.doc) + f"<pre>{html.escape(chr(10).join(each.text))}</pre>\n"


def page(wanted: list[str]) -> Iterator[str]:
    """Yields the page of these crates, with a contents list."""
    listed = listed_crates()
    yield '<!DOCTYPE html>\n<html lang="en"><meta charset="utf-8"><title>The crates of colregs</title>'
    yield f"<style>{STYLE}</style>\n"
    yield "<h1>The crates of colregs, and their contracts</h1>\n<ul>\n"
    for crate in wanted:
        names = ", ".join(f'<a href="#{crate}.{it.name}">{it.name}</a>' for it in of_crate(crate)[0])
        yield f'<li><a href="#{crate}">{crate}</a>: {names}</li>\n'
    yield "</ul>\n"
    for crate in wanted:
        yield from section(crate, listed[crate])
    yield "</html>\n"


def main(description: str | None) -> int:
    """Writes the page of the crates that the arguments name, or of all; returns the exit status."""
    words = argparse.ArgumentParser(prog="doc", description=description,
                                    formatter_class=argparse.RawDescriptionHelpFormatter)
    words.add_argument("crates", nargs="*", metavar="CRATE", help="the crates of the page (default: all)")
    listed = listed_crates()
    wanted = words.parse_args().crates or list(listed)
    unknown = [name for name in wanted if name not in listed]
    if unknown:
        words.error(f"crates.txt has no crate {unknown[0]}")
    for part in page(wanted):
        sys.stdout.write(part)
    return 0
