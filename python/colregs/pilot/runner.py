"""Runs the program on a scenario and a log in memory. A small interface lets a library replace the process."""
from __future__ import annotations

import importlib
import os
import subprocess
import tempfile
import threading
import time
from collections.abc import Callable
from dataclasses import dataclass, replace
from typing import Any, Protocol

from colregs.errors import Fault
from colregs.run.program import found

MISSING, NO_ANSWER = 127, 124       # additional statuses: the program cannot be started; it gave no answer in time
MEMORY = "/dev/shm"                  # files in memory, so that a plan waits for no disk


@dataclass(frozen=True)
class Report:
    """The result of a run: its status (docs/REPORT.md; negative if a signal ended it), its rows, its messages, and its
    elapsed seconds."""

    status: int
    text: str
    words: str
    seconds: float

    def rows(self, kind: str) -> list[list[str]]:
        """Returns the fields of each row of a kind. Not for rows with a vessel's name, which may contain commas."""
        head = kind + ","
        return [line.split(",") for line in self.text.split("\n") if line.startswith(head)]


class Runner(Protocol):
    """Runs one mode on a scenario and a log."""

    def report(self, mode: str, scenario: str, log: bytes, rows: str | None = None, why: bool = False,
               timeout: float = 60) -> Report:
        """Returns the report. `rows` is the text that `recheck` checks, `why` asks `plan` for reasons, and `timeout` is
        in seconds."""
        ...


class ClosingRunner(Runner, Protocol):
    """A runner with resources that `close` releases."""

    def close(self) -> None:
        """Releases the resources."""
        ...


class ProcessRunner:
    """Runs the program as a process, with the scenario as a file in a temporary folder."""

    def __init__(self, program: str) -> None:
        """`program` is the path of the built program."""
        self.program = program
        self.room = tempfile.TemporaryDirectory(prefix="colregs-", dir=MEMORY if os.access(MEMORY, os.W_OK) else None)

    def close(self) -> None:
        """Removes the folder."""
        self.room.cleanup()

    def file(self, name: str, text: str) -> str:
        """Writes a text into the folder, and returns its path."""
        path = os.path.join(self.room.name, name)
        with open(path, "w", encoding="utf-8") as out:
            out.write(text)
        return path

    def report(self, mode: str, scenario: str, log: bytes, rows: str | None = None, why: bool = False,
               timeout: float = 60) -> Report:
        """Returns the report of one process. If the process ends by a signal, hangs or is missing, returns a status
        with a message instead of raising Fault."""
        begin = time.monotonic()
        try:
            words = [self.program, mode, self.file("scenario.toml", scenario)]
            words += (["--rows", self.file("rows.csv", rows)] if rows is not None else []) + (["--why"] if why else [])
            done = subprocess.run(words, input=log, stdout=subprocess.PIPE, stderr=subprocess.PIPE, timeout=timeout)
        except subprocess.TimeoutExpired:
            return Report(NO_ANSWER, "", "the program gave no answer in %.1f s" % timeout, time.monotonic() - begin)
        except OSError as error:
            return Report(MISSING, "", "cannot run %s: %s" % (self.program, (error.strerror or str(error)).lower()),
                          time.monotonic() - begin)
        told = done.stderr.decode("utf-8", "replace").strip()
        return Report(done.returncode, done.stdout.decode("utf-8", "replace"), told, time.monotonic() - begin)


class LibraryRunner:
    """Runs the program's code in this process by a call of `colregs.library`. It abandons a call that hangs, in its
    thread."""

    def __init__(self, call: Callable[..., Any]) -> None:
        """`call` is `colregs.library.report`, or a function of the same form."""
        self.call = call

    def close(self) -> None:
        """Does nothing: there is no folder."""

    def report(self, mode: str, scenario: str, log: bytes, rows: str | None = None, why: bool = False,
               timeout: float = 60) -> Report:
        """Returns the report of one call. If the call raises or takes too long, returns a status with a message."""
        begin, made = time.monotonic(), list[Report]()

        def work() -> None:
            try:
                answer = self.call(mode, scenario, log, rows=rows or "", why=why, whole=False)
                made.append(Report(answer.status, answer.text.decode("utf-8", "replace"), answer.fault, 0.0))
            except (Fault, MemoryError, ValueError, OSError) as error:
                made.append(Report(MISSING, "", f"the library failed: {error}", 0.0))
        thread = threading.Thread(target=work, daemon=True)
        thread.start()
        thread.join(timeout)
        taken = time.monotonic() - begin
        return (
            replace(made[0], seconds=taken)
            if made
            else Report(NO_ANSWER, "", "the library gave no answer in %.1f s" % timeout, taken)
        )


def runner_of(program: str | None) -> ClosingRunner:
    """Returns a runner of `program`. Without one, returns a runner of the library if it is installed, and otherwise of
    the program on this machine."""
    if program is None:
        try:
            library = importlib.import_module("colregs.library")
            if library.library_at(os.environ.get(library.VARIABLE)):
                return LibraryRunner(library.report)
        except (ImportError, AttributeError):
            pass
    return ProcessRunner(found(program))


def status_words(report: Report) -> str:
    """Returns a message about a run that gave no answer."""
    if report.status in (MISSING, NO_ANSWER):
        return report.words
    if report.status < 0:
        return "signal %d ended the program" % -report.status
    return "the program ended with status %d%s" % (report.status, ": " + report.words if report.words else "")
