"""The ship types of a stream that were reported before a window begins, stored for a restart."""
import json
import os

from colregs.io.files import replace
from colregs.shares.cutter import typed_lines
from colregs.shares.types import Stretch, Types
from colregs.stream.day_files import LEAP

EVER = 10 ** 10                 # s since the Unix epoch: after all times of a stream
MOST_TYPES = 1000               # the most vessels whose types begin a window: those that reported theirs last


class StreamTypes:
    """Reads the types from the lines of a stream as they arrive. If ranks do not count, it does nothing."""

    def __init__(self, folder: str, slack: int, counts: bool) -> None:
        self.path, self.counts = os.path.join(folder, "types.json"), counts
        self.types = Types(0, EVER, slack, [])
        self.stored: dict[str, list[int]] = {}
        if counts:
            self.load()

    def load(self) -> None:
        """Loads the types that an earlier run stored; ignores a damaged file."""
        try:
            with open(self.path, encoding="utf-8") as source:
                stored = {str(int(mmsi)): [int(kind), int(at)] for mmsi, (kind, at) in json.load(source).items()}
        except (OSError, ValueError, TypeError, AttributeError):
            return
        self.stored = stored
        for mmsi, (kind, at) in stored.items():
            self.types.notes[int(mmsi)] = [Stretch(kind, at, at)]

    def take(self, line: bytes, clock: int) -> None:
        """Takes a line, given the clock of the stream; like the clock, it ignores a stamp far ahead."""
        if self.counts:
            self.types.end = clock + LEAP
            self.types.take([line])

    def lines_before(self, first: int) -> bytes:
        """Returns the lines to put before a window whose own lines begin at a time."""
        if not self.counts:
            return b""
        types = self.types.known_before(first).types
        latest = sorted(types, key=lambda mmsi: self.types.notes[mmsi][-1].latest)[-MOST_TYPES:]
        return b"".join(typed_lines({str(mmsi): types[mmsi] for mmsi in latest}, first))

    def store(self) -> None:
        """Stores the last type of each vessel, if one has changed."""
        now = {
            str(mmsi): [known[-1].kind, known[-1].earliest]
            for mmsi, known in self.types.notes.items()
            if known[-1].kind or len(known) > 1
        }
        if now != self.stored:
            self.stored = now
            replace(self.path, json.dumps(now).encode())
