"""Rows of a stream as JSON lines, each once: in one file per day, and on standard output, in a file or to a command."""
import json
import os
import subprocess
import sys
from collections.abc import Iterable
from typing import Any, Protocol, TextIO

from colregs.errors import Fault, reason
from colregs.model.earth import iso
from colregs.model.rows import Alarm, Meeting, Verdict, row_of
from colregs.stream.day_files import day_of, whole_length


def as_values(text: str, mode: str, start: int, tick: int, marks: Iterable[str] = ()) -> dict[str, Any]:
    """Returns a row of the program as a dictionary, with times instead of steps; `row` and `run` are unchanged.

    `marks` say why one run over the whole stream may have another row (colregs/stream/borders.py).
    """
    row = row_of(text.split(","))
    if not isinstance(row, (Meeting, Verdict, Alarm)):
        raise ValueError(f"`{text}` is not a row of a stream")
    made: dict[str, Any] = {
        "mode": mode, "run": start, "row": text, "kind": text.partition(",")[0], "subject": row.subject,
        "other": row.other
    }
    if isinstance(row, Alarm):
        return made | {
            "rule": row.rule, "step": iso(start + row.step * tick), "decided": iso(start + (row.decided + 1) * tick)
        } | {mark: True for mark in marks}
    if isinstance(row, Meeting):
        made |= {"encounter": row.encounter, "least": row.metres}
    else:
        made |= {"rule": row.rule, "value": row.value}
    made |= {"begins": iso(start + row.first * tick), "ends": iso(start + (row.last + 1) * tick)}
    return made | {mark: True for mark in marks}


def steps_of(text: str) -> tuple[int, int]:
    """Returns the first step of a row and the step that orders it: its last one, or the one that decides an alarm."""
    fields = text.split(",")
    at = 5 if fields[0] == "verdict" else 4
    return int(fields[at]), int(fields[at + 1])


MISSING = "missing"              # the kind of a line that says that a window has no rows, or not all
UNSURE = "unsure"                # the kind of a line that names a pair whose rows a window may lack


class Sink(Protocol):
    """A destination of rows."""

    def write(self, line: str) -> None:
        """Writes one line."""

    def close(self) -> None:
        """Writes the remaining rows, and ends."""


class Standard:
    """Standard output."""

    def write(self, line: str) -> None:
        """Writes one line at once."""
        sys.stdout.write(line)
        sys.stdout.flush()

    def close(self) -> None:
        """Does nothing: the process closes standard output."""


class File:
    """A file to which rows are appended."""

    def __init__(self, path: str) -> None:
        try:
            self.out = open(path, "a", encoding="utf-8")
        except OSError as error:
            raise Fault(f"cannot write {path}: {reason(error)}") from None

    def write(self, line: str) -> None:
        """Writes one line at once."""
        self.out.write(line)
        self.out.flush()

    def close(self) -> None:
        """Closes the file."""
        self.out.close()


NOT_RUN = 126, 127        # statuses of a shell that cannot run its command


class Command:
    """A shell command that reads rows. If it has ended, each row starts it again at most once."""

    def __init__(self, words: str) -> None:
        self.words = words
        self.child: subprocess.Popen[str] | None = None

    def write(self, line: str) -> None:
        """Writes one line at once."""
        for again in (True, False):
            if self.child is None:
                self.child = subprocess.Popen(["sh", "-c", self.words], stdin=subprocess.PIPE, text=True)
            assert self.child.stdin is not None
            try:
                self.child.stdin.write(line)
                self.child.stdin.flush()
                return
            except OSError:
                self.child.wait()
                self.child = None
                if not again:
                    raise Fault(f"`{self.words}` does not read rows; check the command") from None

    def close(self) -> None:
        """Ends the command's input, and waits for its end."""
        if self.child and self.child.stdin:
            try:
                self.child.stdin.close()
            except OSError:
                pass
            if self.child.wait() in NOT_RUN:
                raise Fault(f"`{self.words}` cannot be run, and took no rows")


class Written:
    """The written rows by mode and window. Each row goes to the sink and then to the day's file, which a restart reads.
    """

    def __init__(self, folder: str, sink: Sink) -> None:
        self.folder, self.sink = folder, sink
        self.known: dict[tuple[str, int], set[str]] = {}
        self.read: set[str] = set()
        self.out: TextIO | None = None                  # the file of the last row
        self.out_path = ""

    def path(self, start: int) -> str:
        """Returns the path of the rows of the day on which a window starts."""
        return os.path.join(self.folder, day_of(start) + ".rows")

    def load(self, start: int) -> None:
        """Reads the rows of a window's day, once."""
        path = self.path(start)
        if path in self.read:
            return
        self.read.add(path)
        if os.path.exists(path):
            os.truncate(path, whole_length(path))
            with open(path, encoding="utf-8") as source:
                for line in source:
                    row = json.loads(line)
                    self.known.setdefault((row["mode"], row["run"]), set()).add(row["row"])

    def write(self, row: str, mode: str, start: int, tick: int, marks: Iterable[str] = ()) -> bool:
        """Writes a row unless it was written before; returns whether it wrote it."""
        self.load(start)
        known = self.known.setdefault((mode, start), set())
        if row in known:
            return False
        known.add(row)
        self.put(as_values(row, mode, start, tick, marks), start)
        return True

    def lack(self, mode: str, start: int, seconds: int, why: str) -> None:
        """Writes a line, once, that rows of a window may be missing."""
        self.load(start)
        known = self.known.setdefault((mode, start), set())
        if MISSING not in known:
            known.add(MISSING)
            self.put({"mode": mode, "run": start, "row": MISSING, "kind": MISSING, "begins": iso(start),
                      "ends": iso(start + seconds), "why": why}, start)

    def question(self, pair: tuple[int, int], mode: str, start: int, bounds: tuple[int, int], why: str) -> None:
        """Writes once that rows of a pair, of a vessel or of all may be missing in a window between two times."""
        self.load(start)
        known, row = self.known.setdefault((mode, start), set()), f"{UNSURE},{pair[0]},{pair[1]},{why}"
        if row not in known:
            known.add(row)
            self.put({"mode": mode, "run": start, "row": row, "kind": UNSURE, "subject": pair[0] or None,
                      "other": pair[1] or None, "begins": iso(bounds[0]), "ends": iso(bounds[1]), "why": why}, start)

    def put(self, told: dict[str, Any], start: int) -> None:
        """Writes a line of a window."""
        line = json.dumps(told) + "\n"
        self.sink.write(line)
        out = self.file(self.path(start))
        out.write(line)
        out.flush()

    def file(self, path: str) -> TextIO:
        """Returns a day's file. It stays open, because the replay of a harbour can have thousands of rows per
        second."""
        if self.out is None or path != self.out_path:
            self.close()
            self.out, self.out_path = open(path, "a", encoding="utf-8"), path
        return self.out

    def close(self) -> None:
        """Closes the file of the last row."""
        if self.out:
            self.out.close()
        self.out = None

    def forget(self, before: int) -> None:
        """Forgets the windows that began before a time."""
        self.known = {key: rows for key, rows in self.known.items() if key[1] >= before}
