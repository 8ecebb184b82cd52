"""The commands that README.md and docs/ show run as shown.

A command is in a fenced block of the kind `console`, in a line that begins with `$ `; a line after it that begins with
`> ` continues it. What it writes follows, on standard output and standard error; a line `..` stands for any lines. The
blocks of a page run in order, in one empty folder that has the program as ./colregs, and `examples`, `tools` and
`python`. No other fenced block may show a command. A block is skipped, with a note, if it needs sqlite3, jq, parallel,
GDAL or a C compiler, or the library for C, and the machine lacks it. `python3 -m dev.checks.commands PROGRAM` writes
what the commands print that show nothing yet into the pages.
"""
from __future__ import annotations

import os
import re
import shutil
import subprocess
import sys
import tempfile
from collections.abc import Iterator

from dev.checking import Findings
from dev.repository import path_of, read

NEEDS_PROGRAM = True
END = "\x01end of a command\x01"
TOOLS = ["sqlite3", "jq", "parallel", "ogr2ogr", "ogrinfo", "cc", "pkg-config"]      # what a machine may lack
LIBRARY = path_of(".cache", "library", "lib")      # what .ci/library made
SECONDS = 600      # the longest run of a block
FOLDERS = ("examples", "tools", "python")
LINES = 30      # the most lines that a fault shows


class Command:
    """A command of a page, the lines that it shows, and the number of its last own line, from 0."""

    def __init__(self, text: str, line: int):
        self.text, self.line = text, line
        self.shown: list[str] = []

    def writes(self, lines: list[str]) -> bool:
        """Returns whether these lines are what the page shows."""
        pattern = "".join("(?:.*\n)*?" if line == ".." else re.escape(line) + "\n" for line in self.shown)
        return re.fullmatch(pattern, "".join(line + "\n" for line in lines)) is not None

    def lacks(self) -> str | None:
        """Returns what the command needs and the machine lacks, or None."""
        if "--libs colregs" in self.text and not os.path.isdir(LIBRARY):
            return "the library for C"
        return next((word for word in TOOLS
                     if re.search(rf"(?<![\w./-]){word}(?![\w.-])", self.text) and not shutil.which(word)), None)


def blocks(lines: list[str]) -> Iterator[list[Command]]:
    """Yields the commands of each console block. Raises ValueError at a command in a block of another kind."""
    kind: str | None = None
    block: list[Command] = []
    for k, line in enumerate(lines):
        if line.startswith("```"):
            if kind == "console":
                yield block
            kind, block = (line[3:].strip() or "none", []) if kind is None else (None, [])
        elif kind == "console" and line.startswith("$ "):
            block.append(Command(line[2:], k))
        elif kind == "console" and (line + " ").startswith("> ") and block and not block[-1].shown:
            block[-1].text, block[-1].line = block[-1].text + "\n" + line[2:], k
        elif kind == "console" and block:
            block[-1].shown.append(line)
        elif kind is not None and (line.startswith("$ ") or kind in ("sh", "bash", "shell", "console")):
            raise ValueError(
                f"line {k + 1}: a command in a block that is not of the kind console, or a line before any")


def run(block: list[Command], folder: str) -> list[list[str]]:
    """Returns the lines that each command of a block writes, as far as they ran."""
    script = "".join(f"{command.text}\n__status=$?; printf '\\n%s\\n' '{END}'; (exit $__status)\n" for command in block)
    settings = {
        **os.environ, "COLREGS_PROGRAM": os.path.join(folder, "colregs"),
        "PKG_CONFIG_PATH": os.path.join(LIBRARY, "pkgconfig"), "LD_LIBRARY_PATH": LIBRARY
    }
    done = subprocess.run(["bash", "-c", script], cwd=folder, stdin=subprocess.DEVNULL, stdout=subprocess.PIPE,
                          stderr=subprocess.STDOUT, env=settings, timeout=SECONDS)
    pieces = done.stdout.decode(errors="replace").split(f"\n{END}\n")
    return [
        piece[:-1].split("\n") if piece.endswith("\n") else piece.split("\n") if piece else []
        for piece in pieces[:len(block)]
    ]


def prepare(program: str, folder: str) -> None:
    """Puts into a folder what the commands of a page find there."""
    with open(os.path.join(folder, "colregs"), "w", encoding="utf-8") as out:
        out.write(f'#!/bin/sh\nexec "{program}" "$@"\n')
    os.chmod(os.path.join(folder, "colregs"), 0o755)
    for name in FOLDERS:
        os.symlink(path_of(name), os.path.join(folder, name))


def results(program: str, page: str, found: Findings) -> list[tuple[Command, list[str]]]:
    """Runs the commands of a page, and returns each with the lines that it wrote."""
    ran: list[tuple[Command, list[str]]] = []
    with tempfile.TemporaryDirectory() as folder:
        prepare(program, folder)
        for block in blocks(read(page).split("\n")):
            lacks = next((it for it in map(Command.lacks, block) if it), None)
            if lacks:
                found.note(f"{page}, line {block[0].line + 1}: not run, for {lacks} is not here")
                continue
            wrote = run(block, folder)
            ran += zip(block, wrote)
            for command in block[len(wrote):]:
                found.fault(f"{page}, line {command.line + 1}: `{command.text}` did not end")
    return ran


def all_pages() -> list[str]:
    """Returns the pages whose commands run."""
    return ["README.md"] + ["docs/" + name for name in sorted(os.listdir(path_of("docs"))) if name.endswith(".md")]


def check(found: Findings) -> None:
    """Adds a fault for each command that writes other lines than its page shows."""
    count = 0
    for page in all_pages():
        try:
            ran = results(found.program, page, found)
        except ValueError as error:
            found.fault(f"{page}, {error}")
            continue
        except subprocess.TimeoutExpired:
            found.fault(f"{page}: a block did not end within {SECONDS} s")
            continue
        count += len(ran)
        for command, wrote in ran:
            if not command.writes(wrote):
                found.fault("\n    ".join([
                    f"{page}, line {command.line + 1}: `{command.text.partition(chr(10))[0]}` writes", *wrote[:LINES]
                ]))
    found.note(f"{count} commands ran")


def write(program: str) -> None:
    """Writes what the commands print that show nothing yet into the pages."""
    for page in all_pages():
        lines = read(page).split("\n")
        for command, wrote in reversed(results(program, page, Findings())):
            if wrote and not command.shown:
                lines[command.line + 1:command.line + 1] = wrote
        with open(path_of(page), "w", encoding="utf-8") as out:
            out.write("\n".join(lines))


if __name__ == "__main__":
    if len(sys.argv) != 2:
        sys.exit(__doc__)
    write(os.path.abspath(sys.argv[1]))
