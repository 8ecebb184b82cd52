"""Runs the checks of dev/checks, for `dev/check`."""
from __future__ import annotations

import argparse
import importlib
import os
import subprocess
from dataclasses import dataclass, field
from typing import Protocol

from dev.repository import path_of


@dataclass
class Findings:
    """The findings of a check, and the program that it may run: an absolute path, or an empty text if it needs none."""

    program: str = ""
    faults: list[str] = field(default_factory=list)
    notes: list[str] = field(default_factory=list)

    def fault(self, sentence: str) -> None:
        """Adds a fault, which fails the check."""
        self.faults.append(sentence)

    def note(self, sentence: str) -> None:
        """Adds a note for the reader, which does not fail the check."""
        self.notes.append(sentence)

    def same(self, what: str, found: object, wanted: object) -> None:
        """Adds a fault if two values differ."""
        if found != wanted:
            self.fault(f"{what}: {found}, want {wanted}")


class Check(Protocol):
    """A module of dev/checks."""

    NEEDS_PROGRAM: bool

    def check(self, found: Findings) -> None:
        """Adds the faults to `found`."""


def names() -> list[str]:
    """Returns the names of all checks."""
    return sorted(name[:-3]
                  for name in os.listdir(path_of("dev", "checks"))
                  if name.endswith(".py") and not name.startswith("_"))


def module(name: str) -> Check:
    """Returns a check by its name."""
    loaded: Check = importlib.import_module("dev.checks." + name)
    return loaded


def summary(name: str) -> str:
    """Returns a one-line summary of a check."""
    return (importlib.import_module("dev.checks." + name).__doc__ or "").splitlines()[0]


def the_program(given: str | None) -> str:
    """Returns the path of the program to run: the given one, or that of `./colregs`. Raises SystemExit if there is
    none."""
    if given:
        if not os.access(given, os.X_OK):
            raise SystemExit(f"check: {given} is not an executable file")
        return os.path.abspath(given)
    done = subprocess.run([path_of("colregs"), "--path"], stdin=subprocess.DEVNULL, stdout=subprocess.PIPE, text=True)
    if done.returncode:
        raise SystemExit("check: cannot find or build the program; give one with --program")
    return done.stdout.rstrip("\n")


def run(name: str, program: str) -> bool:
    """Runs a check and prints its findings; returns whether it passed."""
    found = Findings(program)
    try:
        module(name).check(found)
    except OSError as error:
        found.fault(f"{error.filename}: {error.strerror}")
    for note in found.notes:
        print(f"{name}: note: {note}")
    for fault in found.faults:
        print(f"{name}: {fault}")
    print(f"{name}: {len(found.faults)} faults" if found.faults else f"{name}: ok", flush=True)
    return not found.faults


def main(description: str | None) -> int:
    """Runs `dev/check` with the arguments of the command line, and returns its exit status."""
    parser = argparse.ArgumentParser(prog="check", description=description,
                                     formatter_class=argparse.RawDescriptionHelpFormatter)
    parser.add_argument("--program", metavar="P", help="the program to run")
    parser.add_argument("--list", action="store_true", help="list the checks, and run none")
    parser.add_argument("names", metavar="NAME", nargs="*", help="the checks to run, of those that --list shows")
    given = parser.parse_args()
    if given.list:
        print("\n".join(f"{name:10} {summary(name)}" for name in names()))
        return 0
    unknown = sorted(set(given.names) - set(names()))
    if unknown:
        parser.error(f"there is no check {unknown[0]}; --list shows them")
    wanted = given.names or names()
    program = the_program(given.program) if any(module(name).NEEDS_PROGRAM for name in wanted) else ""
    passed = sum(run(name, program) for name in wanted)
    print(f"{passed} passed, {len(wanted) - passed} failed")
    return 1 if passed < len(wanted) else 0
