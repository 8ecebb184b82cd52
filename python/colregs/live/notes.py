"""Acknowledgements of alarms with their notes, in an SQLite database next to the day files. Each change adds a row; no
row is removed."""
import os
import sqlite3
import threading
from dataclasses import dataclass

from colregs.errors import Fault

NAME = "live.db"
LONGEST = 2000                  # letters of a note
SCHEMA = """create table if not exists acknowledgement(
  subject integer not null, other integer not null, rule text not null,   -- whose alarm it is
  -- the alarm's steps at that time, s since the Unix epoch
  first integer not null, last integer not null,
  acknowledged integer not null, note text not null, at integer not null) -- 1 or 0, and when, s since the Unix epoch
"""
Key = tuple[int, int, str]


@dataclass(frozen=True)
class Note:
    """An acknowledgement or its withdrawal: the steps of its alarm, the note, and its time."""

    first: int
    last: int
    acknowledged: bool
    note: str
    at: int

    def is_of(self, first: int, last: int) -> bool:
        """Returns whether it is of an alarm with these steps: an alarm can grow after it is acknowledged."""
        return self.first < last and first < self.last


class Notes:
    """All acknowledgements, by the alarm's pair and rule. The requests of browsers write, and the stream reads."""

    def __init__(self, folder: str) -> None:
        self.lock = threading.Lock()
        try:
            self.base = sqlite3.connect(os.path.join(folder, NAME), check_same_thread=False, isolation_level=None)
            self.base.execute("pragma journal_mode = wal")
            self.base.execute("pragma synchronous = full")
            self.base.execute(SCHEMA)
            rows = self.base.execute("select subject, other, rule, first, last, acknowledged, note, at from "
                                     "acknowledgement order by rowid").fetchall()
        except sqlite3.Error as error:
            raise Fault(f"{os.path.join(folder, NAME)}: {error}") from None
        self.known: dict[Key, list[Note]] = {}
        for subject, other, rule, *rest in rows:
            self.known.setdefault((subject, other, rule),
                                  []).append(Note(rest[0], rest[1], bool(rest[2]), rest[3], rest[4]))

    def add(self, key: Key, note: Note) -> None:
        """Stores an acknowledgement. It is on the disk when this returns."""
        with self.lock:
            self.base.execute("insert into acknowledgement values(?, ?, ?, ?, ?, ?, ?, ?)",
                              (*key, note.first, note.last, int(note.acknowledged), note.note, note.at))
            self.known.setdefault(key, []).append(note)

    def of(self, key: Key, first: int, last: int) -> Note | None:
        """Returns the latest acknowledgement of an alarm, or None."""
        with self.lock:
            return next((note for note in reversed(self.known.get(key, [])) if note.is_of(first, last)), None)

    def close(self) -> None:
        """Closes the database."""
        self.base.close()
