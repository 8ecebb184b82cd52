"""Writes the log of a share: a separate process decompresses and cuts its files."""
import json
import os
import shlex
import subprocess
from typing import Any

from colregs.errors import Fault
from colregs.run.children import CHILDREN
from colregs.run.pipes import module, reader
from colregs.shares.cutter import Cut

Reads = list[list[list[Any]]]           # per file: what to do with its bytes (colregs/shares/reads.py)


def write_cut(files: list[str], cut: Cut, folder: str, target: str, words: str, reads: Reads | None = None) -> None:
    """Writes the lines that a cut leaves of files into a file. With `reads` it reads only the relevant bytes."""
    spec = os.path.join(folder, "cut.json")
    with open(spec, "w", encoding="utf-8") as text:
        json.dump(cut.told() | ({} if reads is None else {"files": files, "reads": reads}), text)
    command = shlex.join(module("shares.cutter", spec))
    with open(target, "wb") as out:
        done = CHILDREN.run(["bash", "-c", command if reads is not None else f"set -o pipefail; {reader(files)} | "
                                                                             f"{command}"],
                            stdin=subprocess.DEVNULL, stdout=out, stderr=subprocess.PIPE)
    if done.returncode:
        said = done.stderr.decode("utf-8", "replace").strip().splitlines()
        raise Fault(f"{words}: cannot read its files to the end: "
                    f"{said[-1] if said else f'status {done.returncode}'}")
