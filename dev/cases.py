"""Runs the worked cases of tests/cases on a built program: python3 -m dev.cases PROGRAM [GROUP | GROUP/NAME ..]

tests/README.md describes the files of a case. If no case is named, all run.
"""
from __future__ import annotations

import os
import subprocess
import sys
import tempfile
from dataclasses import dataclass

from dev.repository import path_of

SECONDS = 60      # the longest run of a case
CASES = path_of("tests", "cases")
# files that describe the case; the others are for the program
OWN = {"args", "log", "stdout", "stderr", "status", "lengthened"}


@dataclass(frozen=True)
class Result:
    """The actual or the expected result of a run."""

    status: int
    output: bytes
    errors: bytes

    def difference(self, wanted: Result) -> str | None:
        """Returns the first difference from the wanted result, or None."""
        if self.status != wanted.status:
            return f"status {self.status}, want {wanted.status}; standard error {self.errors[:120]!r}"
        if self.output != wanted.output:
            return "standard output, " + first_difference(self.output, wanted.output)
        if self.errors != wanted.errors:
            return f"standard error {self.errors[:120]!r}, want {wanted.errors[:120]!r}"
        return None


def first_difference(have: bytes, wanted: bytes) -> str:
    """Returns the first line in which two texts differ, with its number."""
    lines = [text.split(b"\n") for text in (have, wanted)]
    for number in range(max(map(len, lines))):
        a, b = (text[number] if number < len(text) else b"(no line)" for text in lines)
        if a != b:
            return f"line {number + 1}: got {a[:120]!r}, want {b[:120]!r}"
    return "the same"


class Case:
    """A folder that describes one run."""

    def __init__(self, folder: str):
        self.folder, self.name = folder, os.path.relpath(folder, CASES)

    def read(self, name: str) -> bytes:
        """Returns the bytes of a file of the case, or no bytes if it does not exist."""
        path = os.path.join(self.folder, name)
        if not os.path.exists(path):
            return b""
        with open(path, "rb") as source:
            return source.read()

    def wanted(self) -> Result:
        """Returns the expected result. Raises ValueError if the case has no status."""
        return Result(int(self.read("status")), self.read("stdout"), self.read("stderr"))

    def prepare(self, place: str) -> None:
        """Writes the input files of the program into its working folder."""
        lengthened, _, size = self.read("lengthened").decode().partition(" ")
        for name in sorted(set(os.listdir(self.folder)) - OWN):
            text = self.read(name)
            with open(os.path.join(place, name), "wb") as out:
                out.write(text.ljust(int(size), b"#") if name == lengthened else text)

    def run(self, program: str) -> Result:
        """Runs the program on the case. Raises subprocess.TimeoutExpired after a minute."""
        with tempfile.TemporaryDirectory() as place:
            self.prepare(place)
            done = subprocess.run([program, *self.read("args").decode().splitlines()], input=self.read("log"),
                                  cwd=place, capture_output=True, timeout=SECONDS)
            return Result(done.returncode, done.stdout, done.stderr)

    def fault(self, program: str) -> str | None:
        """Returns what is wrong with a run of the program, or None."""
        try:
            return self.run(program).difference(self.wanted())
        except subprocess.TimeoutExpired:
            return f"no end within {SECONDS} s"
        except ValueError as error:
            return f"the case has no number in `status`: {error}"


def cases(names: list[str]) -> list[Case]:
    """Returns the cases of these names, or all. Raises SystemExit if a name has no case."""
    found: list[Case] = []
    for name in names or sorted(os.listdir(CASES)):
        folder = os.path.join(CASES, name)
        if not os.path.isdir(folder):
            sys.exit(f"cases: tests/cases has no {name}")
        is_case = os.path.exists(os.path.join(folder, "args"))
        found += [Case(folder)] if is_case else [Case(os.path.join(folder, it)) for it in sorted(os.listdir(folder))]
    return found


def main() -> int:
    """Runs the cases that the arguments name; returns 1 if one fails."""
    if len(sys.argv) < 2 or sys.argv[1].startswith("-"):
        sys.exit(__doc__)
    program, failed = os.path.abspath(sys.argv[1]), 0
    wanted = cases(sys.argv[2:])
    for case in wanted:
        fault = case.fault(program)
        if fault:
            failed += 1
            print(f"cases: {case.name}: {fault}")
    print(f"{len(wanted) - failed} passed, {failed} failed")
    return 1 if failed else 0


if __name__ == "__main__":
    sys.exit(main())
