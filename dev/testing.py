"""Runs all tests in parallel, for `./test`."""
from __future__ import annotations

import argparse
import os
import re
import sys
import tempfile
import time
from collections.abc import Iterator
from dataclasses import dataclass
from typing import IO

from dev import checking
from dev.children import EACH, Child, end_as_interrupted, processors
from dev.kit import SETTINGS
from dev.repository import TOP, Fault, files_of, listed_crates, path_of, read

# The counts in the last lines of a job, by runner: `rt try`, unittest, and the repository's own.
COUNTS = [
    re.compile(it, re.M)
    for it in (r"^test result: \w+\. (\d+) passed; (\d+) failed", r"^(?:callers: )?(\d+) passed, (\d+) failed\b")
]
RAN, FAILED = re.compile(r"^Ran (\d+) tests? in", re.M), re.compile(r"^FAILED \((.*)\)$", re.M)
SECONDS = 900      # the longest run of the tests of a crate, on a busy machine
SHOWN = 60      # the most last lines to show of a failed job


@dataclass(frozen=True)
class Job:
    """A command of tests; if it needs the program, it starts after the build."""

    name: str
    command: tuple[str, ...]
    folder: str = TOP
    needs_program: bool = True
    seconds: int = 10      # its approximate CPU time; the longest start first


@dataclass(frozen=True)
class Count:
    """The numbers of passed and failed tests."""

    passed: int
    failed: int


def counted(text: str, status: int) -> Count:
    """Returns the counts of a job from its output; a job without counts is one test. A failed job has at least one
    failure."""
    for pattern in COUNTS:
        found = pattern.findall(text)
        if found:
            passed, failed = (sum(int(it[k]) for it in found) for k in (0, 1))
            return Count(passed, failed or int(status != 0))
    ran = RAN.search(text)
    if ran:
        failures = FAILED.search(text)
        failed = sum(
            int(it)
            for it in re.findall(r"(?:failures|errors|unexpected successes)=(\d+)", failures[1])) if failures else 0
        skipped = sum(int(it) for it in re.findall(r"skipped=(\d+)", text.rpartition("Ran ")[2]))
        return Count(int(ran[1]) - failed - skipped, failed or int(status != 0))
    return Count(int(status == 0), int(status != 0))


def _has_tests(crate: str) -> bool:
    return any(file.endswith(".rt") and "#[test]" in read(file) for file in files_of(crate, "src"))


def crate_jobs() -> Iterator[Job]:
    """Yields one job per crate with tests. `rt try` runs them compiled with checks and without proofs."""
    for crate in listed_crates():
        if _has_tests(crate):
            # A program of tests is compiled with all crates below it.
            yield Job("crate: " + crate, ("rt", "try", "--test", "--seconds", str(SECONDS)), path_of("crates", crate),
                      False, 60 + 90 * crate.startswith(("run", "session")))


def modules_of(*folder: str) -> list[str]:
    """Returns the names of the modules of tests in a folder."""
    return sorted(name[:-3]
                  for name in os.listdir(path_of(*folder))
                  if name.startswith("test_") and name.endswith(".py"))


def program_jobs(program: str, library: str | None = None) -> Iterator[Job]:
    """Yields the jobs that run the program, or the tools with it, or the library for C, and the checks."""
    here = sys.executable
    yield Job("cases", (here, "-m", "dev.cases", program), seconds=5)
    for name in modules_of("python", "tests"):
        yield Job("tools: " + name[5:], (here, path_of("python", "tests", "run"), program, name))
    for name in modules_of("dev", "tests"):
        yield Job("dev: " + name[5:], (here, "-m", "unittest", "dev.tests." + name), seconds=15)
    yield Job("examples", (here, path_of("examples", "check"), program))
    for name in checking.names():
        yield Job("check: " + name, (here, path_of("dev", "check"), "--program", program, name))
    if library:
        yield Job("callers", (here, path_of("examples", "callers", "run"), library, program), seconds=60)


class Running:
    """A running job."""

    def __init__(self, job: Job, settings: dict[str, str]):
        self.job, self._begun = job, time.monotonic()
        self._said: IO[str] = tempfile.TemporaryFile("w+", encoding="utf-8", errors="replace")
        self.child = Child(list(job.command), self._said, job.folder, settings)

    def text(self) -> str:
        """Returns the output of the job so far."""
        self._said.seek(0)
        return self._said.read()

    def seconds(self) -> int:
        """Returns the whole seconds since the job began."""
        return int(time.monotonic() - self._begun)


class Tests:
    """All jobs: waiting and running ones, and the results of the others."""

    BUILD = Job("program", (path_of("colregs"), "--path"), needs_program=False, seconds=1000)

    def __init__(self, program: str | None, library: str | None, names: list[str]):
        self._names, self._library, self._settings = names, library, dict(SETTINGS)
        self._waiting: list[Job] = []
        self._running: list[Running] = []
        self._count = Count(0, 0)
        if program is None:
            self._waiting += [self.BUILD, *filter(self._is_wanted, crate_jobs())]
        else:
            self._take_program(program)

    def _is_wanted(self, job: Job) -> bool:
        return not self._names or job.name.startswith(tuple(self._names))

    def _take_program(self, program: str) -> None:
        self._settings["COLREGS_PROGRAM"] = program
        self._waiting += filter(self._is_wanted, program_jobs(program, self._library))

    def _begin(self, places: int) -> None:
        self._waiting.sort(key=lambda it: -it.seconds)
        while self._waiting and len(self._running) < places:
            self._running.append(Running(self._waiting.pop(0), self._settings))

    def _end(self, done: Running) -> None:
        """Reports the result of a job, and shows its output if it failed."""
        text, status = done.text(), done.child.run.returncode
        count = counted(text, status)
        if done.job is self.BUILD:
            count = Count(0, int(status != 0))
            if status == 0:
                self._take_program(text.splitlines()[-1])
        self._count = Count(self._count.passed + count.passed, self._count.failed + count.failed)
        print(f"{done.job.name}: {count.passed} passed, {count.failed} failed ({done.seconds()} s)", flush=True)
        lines = text.splitlines()
        for line in lines[-SHOWN:] if count.failed else [it for it in lines if "not run" in it]:
            print("    " + line, flush=True)

    def run(self) -> int:
        """Runs all jobs; returns the number of failed tests. Leaves nothing running, even if it is stopped."""
        places, latest = processors(), time.monotonic()
        try:
            while self._waiting or self._running:
                self._begin(places)
                time.sleep(0.05)
                if time.monotonic() - latest >= EACH:
                    latest = time.monotonic()
                    print("at work: " + ", ".join(f"{it.job.name} {it.seconds()} s" for it in self._running),
                          file=sys.stderr, flush=True)
                for done in [it for it in self._running if it.child.run.poll() is not None]:
                    self._running.remove(done)
                    self._end(done)
        finally:
            for left in self._running:
                left.child.stop()
        print(f"{self._count.passed} passed, {self._count.failed} failed", flush=True)
        return self._count.failed


def main(description: str | None) -> int:
    """Runs `./test` with the arguments of the command line, and returns its exit status."""
    parser = argparse.ArgumentParser(prog="test", description=description,
                                     formatter_class=argparse.RawDescriptionHelpFormatter)
    parser.add_argument("--program", metavar="P", help="use this program, and leave out the crates of tests")
    parser.add_argument("--library", metavar="L",
                        help="also run the callers of the library for C, a folder that .ci/library made")
    parser.add_argument("--list", action="store_true", help="list the names of the jobs, and run none")
    parser.add_argument("names", metavar="NAME", nargs="*", help="run only the jobs whose names begin so")
    given = parser.parse_args()
    program, library = (os.path.abspath(it) if it else None for it in (given.program, given.library))
    jobs = [*([] if program else crate_jobs()), *program_jobs(program or "", library)]
    if given.list:
        print("\n".join(job.name for job in jobs))
        return 0
    unknown = [name for name in given.names if not any(job.name.startswith(name) for job in jobs)]
    if unknown:
        parser.error(f"no job's name begins with {unknown[0]}; --list lists them")
    if program and not os.access(program, os.X_OK):
        parser.error(f"{given.program} is not an executable file")
    end_as_interrupted()
    try:
        return 1 if Tests(program, library, given.names).run() else 0
    except Fault as fault:
        print(f"test: {fault}", file=sys.stderr)
        return 1
    except KeyboardInterrupt:
        print("test: stopped", file=sys.stderr)
        return 130
