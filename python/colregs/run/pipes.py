"""Pipelines of processes that decompress and cut the files of a log and feed them to the program."""
import os
import shlex
import subprocess
import sys
from dataclasses import dataclass
from typing import BinaryIO

from colregs.errors import Fault
from colregs.io.packing import packing
from colregs.run.children import CHILDREN
from colregs.run.program import TOP

# the parent folder of the package
PACKAGE = os.path.dirname(os.path.dirname(os.path.dirname(os.path.abspath(__file__))))
READERS = {"plain": "cat --", "gzip": "gzip -dc --", "xz": "xz -dc --", "bzip2": "bzip2 -dc --", "zstd": "zstd -dcq --"}
TOOL = os.path.join(TOP, "tools", "colregs-many")


def reader(files: list[str]) -> str:
    """Returns a shell command that writes these files, decompressed, one after the other."""
    words = []
    for name in files:
        kind = packing(name)
        if kind not in READERS:
            raise Fault(f"{name} is compressed by {kind}: decompress it, or convert it with tools/colregs-tagged")
        words.append(f"{READERS[kind]} {shlex.quote(os.path.abspath(name))}")
    return "{ " + " && ".join(words) + "; }"


def module(name: str, argument: str) -> list[str]:
    """Returns a command that runs `main` of a module of this package in a new process, which starts fast."""
    code = f"import sys; sys.path.insert(0, {PACKAGE!r}); from colregs.{name} import main; main()"
    return [sys.executable, "-S", "-E", "-B", "-c", code, argument]


@dataclass
class Ended:
    """The end of a run: its status, its line on standard error, and whether it read the log to its end."""

    status: int
    words: str
    whole: bool


def piped(command: str, words: list[str], out: BinaryIO, error: BinaryIO) -> Ended:
    """Runs the program on the output of a shell command; the shell's messages go to the file `error`."""
    log = CHILDREN.started(["bash", "-c", "set -o pipefail; " + command], stdout=subprocess.PIPE, stderr=error)
    with log:
        done = CHILDREN.run(words, stdin=log.stdout, stdout=out, stderr=subprocess.PIPE)
        if log.stdout:
            log.stdout.close()
    CHILDREN.ended(log)
    error.seek(0)
    said = (done.stderr or error.read()).decode("utf-8", "replace").strip()
    return Ended(done.returncode, said, log.returncode == 0)
