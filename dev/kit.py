"""The kit that proves and compiles: its folder and its commands."""
from __future__ import annotations

import os
import re
import subprocess
from typing import Dict, List

from .repository import Fault, PROGRAM, listed_crates, crates_of, path_of, read_if_there

TARGET = "x86_64-unknown-linux-gnu"
# The prover takes some 8 % less time if its allocator returns no memory while it runs. `.ci/run` sets the same.
SETTINGS = {"MIMALLOC_PURGE_DELAY": "-1", **os.environ}


def asked(word: str) -> str:
    """Returns the output of `rt WORD`. Raises Fault if `rt` cannot run."""
    try:
        done = subprocess.run(["rt", word], stdin=subprocess.DEVNULL, stdout=subprocess.PIPE, stderr=subprocess.PIPE,
                              universal_newlines=True)
    except OSError:
        raise Fault("cannot build: the command rt is not on the PATH; README.md says where to get the kit") from None
    if done.returncode:
        raise Fault("cannot build: `rt %s` ended with status %d: %s" %
                    (word, done.returncode, " ".join(done.stderr.split())[-300:]))
    return done.stdout.strip()


class Kit:
    """The folder of the kit that `rt` belongs to."""

    def __init__(self) -> None:
        """Finds the kit. Raises Fault if there is none, or if it lacks its build tools."""
        self.folder = os.path.dirname(asked("doc"))

    def tool(self, *names: str) -> str:
        """Returns the path of a file of the kit. Raises Fault if it is missing."""
        path = os.path.join(self.folder, *names)
        if not os.path.exists(path):
            raise Fault("cannot build: the kit has no %s; install a whole kit (README.md)" % path)
        return path

    def clang(self) -> str:
        """Returns the path of the kit's compiler."""
        return self.tool("toolchain", "bin", "clang")

    def link(self, made: List[str], program: str) -> List[str]:
        """Returns the command that links object files into a program."""
        toolchain = os.path.join(self.folder, "toolchain")
        return [self.tool("bin", "rattle-link"), "--target", TARGET, "--toolchain", toolchain, "-o", program, *made,
                self.tool("c", "libos_c.a"), self.tool("c", "liblibc_c.a")]

    def crate_folder(self, name: str) -> str:
        """Returns the folder with the sources of one of the kit's libraries."""
        return os.path.join(self.folder, "rattle", "examples/check" if name == "check" else name)

    def source_folders(self) -> Dict[str, str]:
        """Returns the folder with the sources of the program and of each library below it, by the name of the crate."""
        listed = listed_crates()
        crates = crates_of(PROGRAM, listed)
        folders = {name: path_of("crates", name, "src") for name in crates}
        folders.update((name, os.path.join(self.crate_folder(name), "src")) for name in self.libraries(crates, listed))
        return folders

    def source_words(self, folders: Dict[str, str]) -> List[str]:
        """Returns the arguments that pass the program to the kit as the sources in these folders: its root, and each
        library below it with those that it uses."""
        listed = listed_crates()
        crates = crates_of(PROGRAM, listed)
        words = ["--crate-name", PROGRAM, os.path.join(folders[PROGRAM], "main.rt")]
        uses = {
            name: dict.fromkeys([
                "core", "std", *[it for it in listed[name] if it not in listed],
                *[it for it in listed[name] if it in listed]
            ])
            for name in crates[:-1]
        }
        for name, used in [*uses.items(), *self.libraries(crates, listed).items()]:
            words += ["--lib", "%s:%s=%s" % (name, ",".join(used), os.path.join(folders[name], "lib.rt"))]
        return words

    def libraries(self, crates: List[str], listed: Dict[str, List[str]]) -> Dict[str, List[str]]:
        """Returns the kit's libraries that these crates depend on, each with the libraries that it uses itself."""
        found: Dict[str, List[str]] = {}
        waiting = ["std", *[it for crate in crates for it in listed[crate] if it not in listed]]
        while waiting:
            name = waiting.pop(0)
            if name not in found:
                found[name] = re.findall(r"^dep (\w+)$",
                                         read_if_there(os.path.join(self.folder, "rlibs", name + ".rlib", "format")),
                                         re.M)
                waiting += found[name]
        return found
