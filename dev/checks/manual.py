"""The pages agree with what the program reports of itself: modes, options, statuses and version.

docs/colregs.1 has each mode with its line, each option with its text, each status with its meaning, the version and the
example of `--help`, and no others. The line of usage, docs/REPORT.md, README.md, the completion for bash, and
`./colregs --help` before anything is built have the same modes in the same order; docs/REPORT.md the same options and
statuses; and the completion the same options.
"""
from __future__ import annotations

import os
import re
import shutil
import subprocess
import tempfile
from collections.abc import Iterator
from dataclasses import dataclass

from dev.checking import Findings
from dev.repository import NO_PROGRAM, path_of, read

NEEDS_PROGRAM = True
STARTERS_STATUS = (str(NO_PROGRAM), "in a clone")      # of ./colregs, which starts the program


def section(page: str, name: str) -> str:
    """Returns the text of a section of a manual page, empty if there is none."""
    found = re.search(rf'^\.SH "?{name}"?\n(.*?)(?=^\.SH|\Z)', page, re.M | re.S)
    return found.group(1) if found else ""


def tag_of(words: str) -> str:
    """Returns the words of a tag without its marks, as `--rows FILE` for `.BI --rows " FILE"`."""
    return " ".join(re.findall(r"[\w-]+", words))


def entries(text: str) -> dict[str, str]:
    """Returns the text of each entry of a section, by its tag."""
    found = {}
    for entry in re.split(r"^\.(?:TP|PP)\n", text, flags=re.M)[1:]:
        tag, _, body = entry.partition("\n")
        if tag.startswith("."):
            found[tag_of(re.sub(r"^\.\w+", "", tag))] = " ".join(body.split())
    return found


@dataclass(frozen=True)
class Help:
    """What `--help` lists: each mode, option and status with its text."""

    modes: dict[str, str]
    options: dict[str, str]
    statuses: dict[str, str]

    @classmethod
    def of(cls, text: str) -> Help:
        """Reads the text of `--help`."""
        options = {tag_of(tag): line for tag, line in re.findall(r"^ +(--\w+(?: <\w+>)?)\n +(.*)$", text, re.M)}
        options.update({tag_of(tag): "As the only word: print" for tag in re.findall(r"^ +(-\w, --\w+)$", text, re.M)})
        statuses = dict([*re.findall(r"^ +(\d+)  (.*)$", text, re.M), STARTERS_STATUS])
        return cls(dict(re.findall(r"^ +- (\w+): +(.*)$", text, re.M)), options, statuses)


def compare(found: Findings, kind: str, wanted: dict[str, str], there: dict[str, str]) -> None:
    """Adds a fault for each entry that only one of the two has, or whose text on the page does not begin with that of
    `--help`."""
    for tag in sorted(set(wanted) ^ set(there)):
        found.fault(f"docs/colregs.1: {kind} {tag} is {'missing' if tag in wanted else 'not in --help'}")
    for tag in sorted(set(wanted) & set(there)):
        if not there[tag].startswith(wanted[tag]):
            found.fault(f"docs/colregs.1: {kind} {tag} is '{there[tag]}', and --help says '{wanted[tag]}'")


def help_unbuilt() -> str:
    """Returns what `./colregs --help` prints in a clone in which nothing is built."""
    with tempfile.TemporaryDirectory() as place:
        for name in ("docs", "crates.txt"):
            os.symlink(path_of(name), os.path.join(place, name))
        shutil.copy(path_of("colregs"), place)
        return subprocess.run([os.path.join(place, "colregs"), "--help"], stdout=subprocess.PIPE, check=True,
                              text=True).stdout


def first(pattern: str, text: str) -> str:
    """Returns what the first group of a pattern matches first, empty if nothing does."""
    found = re.search(pattern, text)
    return found.group(1) if found else ""


def lists(program: str, listed: Help) -> Iterator[tuple[str, list[str], list[str]]]:
    """Yields the lists that must be the same: the place of each, what it has, and what `--help` has."""
    modes, options = list(listed.modes), list(listed.options)
    usage = subprocess.run([program], stdin=subprocess.DEVNULL, stderr=subprocess.PIPE, text=True).stderr
    report, completion = read("docs", "REPORT.md"), read("tools", "completion", "colregs.bash")
    yield "the line of usage", first(r"usage: ([\w|]+) SCENARIO\n", usage).split("|"), modes
    yield "./colregs --help before it is built", re.findall(r"^  (\w+) +[A-Z]", help_unbuilt(), re.M), modes
    yield "tools/completion/colregs.bash, modes", first(r'modes="([^"]*)"', completion).split(), modes
    yield "tools/completion/colregs.bash, options", first(r'options="([^"]*)"', completion).split(), re.findall(
        r"--[a-z]+", " ".join(options))
    yield "README.md, modes", re.findall(r"^\| `(\w+)` \|", read("README.md"), re.M), modes
    yield "docs/REPORT.md, modes", re.findall(r"^    colregs (\w+) SCENARIO", report, re.M), modes
    yield "docs/REPORT.md, options", re.findall(r"^\| `(--\w+)` \|", report, re.M), [
        it.split()[0] for it in options if "help" not in it and "version" not in it
    ]
    yield "docs/REPORT.md, the line of usage", first(r"`usage: (\S+) SCENARIO`", report).split("\\|"), modes
    yield "docs/REPORT.md, statuses", re.findall(r"^\| (\d+) \| (?:`\w+` )?\|", report, re.M), list(listed.statuses)


def check(found: Findings) -> None:
    """Adds a fault for each difference."""
    shown, version = (subprocess.run([found.program, word], stdout=subprocess.PIPE, check=True, text=True).stdout
                      for word in ("--help", "--version"))
    listed, page = Help.of(shown), read("docs", "colregs.1")
    if not (listed.modes and listed.options and len(listed.statuses) > 1):
        found.fault("--help shows no modes, options or statuses")
    compare(found, "mode", listed.modes, entries(section(page, "MODES")))
    compare(found, "option", listed.options, entries(section(page, "OPTIONS")))
    compare(found, "status", listed.statuses, entries(section(page, "EXIT STATUS")))
    for place, there, wanted in lists(found.program, listed):
        found.same(place, " ".join(there), " ".join(wanted))
    for text in (version.strip(), shown.split("\n")[0], shown.strip().split("\n")[-1].strip()):
        if text not in page:
            found.fault(f"docs/colregs.1 lacks '{text}'")
