"""The lines of a stream in one file per day of its clock. Runs read these files as they grow, also after a restart."""
import calendar
import collections
import os
import re
import statistics
import time
from collections.abc import Callable, Iterator
from typing import BinaryIO, NamedTuple

from colregs.errors import Fault, reason
from colregs.io.forms import Unsure
from colregs.io.lines import stamp_of
from colregs.io.sentences import block
from colregs.io.tag_blocks import blocks
from colregs.stream.health import station_of

BLOCK = 1 << 16                  # bytes of a chunk for a run
Mark = tuple[str, int]           # a place in the day files: a day, and an offset in its file
MARK = re.compile(r"\d+ \d+\n")
LEAP, SURE = 3600, 10            # a time more than LEAP s ahead counts after SURE such lines in a row
# compares clocks if at least LEAST_STATIONS named stations were heard in the last ACTIVE lines
LEAST_STATIONS, ACTIVE = 3, 100
MOST_OFFSETS = 1000              # the most stations with a stored lead
RECENT, AHEAD = 21, 300          # otherwise: the lines to compare, and the s that a stamp may be ahead of their median


Timed = tuple[bytes, bytes]      # a line as it arrived, and as it is written


class Held(NamedTuple):
    """A waiting line: its stamp, and at its arrival the number of lines, the number of the clock's leaps, and the time.
    """

    line: bytes
    at: int | None
    number: int
    leaps: int
    time: int


class Clock:
    """The greatest time so far. A time far ahead of it counts after ten lines in a row have such a time."""

    def __init__(self) -> None:
        self.time: int | None = None
        self.ahead: list[int] = []

    def take(self, line: bytes) -> int | None:
        """Takes a line; returns the time of the clock after it."""
        at = stamp_of(line)
        if at is None or self.time is not None and at <= self.time:
            self.ahead = self.ahead if at is None else []
        elif self.time is None or at <= self.time + LEAP:
            self.time, self.ahead = at, []
        else:
            self.ahead.append(at)
            if len(self.ahead) == SURE:
                self.time, self.ahead = min(self.ahead), []
        return self.time

    def released(self, line: bytes) -> list[Timed]:
        """Returns the lines to write after taking a line: only this line."""
        return [(line, line)]

    def last(self) -> tuple[list[Timed], int]:
        """Returns the lines that still wait at the end of the stream, and the number of dropped ones."""
        return [], 0


class MedianClock:
    """The clock of most stations, or, if fewer than three have names, of most of the last lines. It can go back.

    Its time is the greatest stamp that is at most a tolerance ahead of the median, so that no single station and no few
    lines set it. A line ahead of the clock waits, with all lines after it. If the clock follows, for example after an
    outage, the line has its own time. If the clock has not followed after a number of lines, the line gets the clock's
    time. If its station was as far ahead before, the line gets the clock's time at once.
    """

    def __init__(self, slack: int) -> None:
        self.slack, self.lines, self.leaps = slack, 0, 0
        self.held: collections.deque[Held] = collections.deque()
        self.offsets: dict[str, int] = {}                       # by station: how far it was ahead
        self.time: int | None = None
        self.ahead: list[int] = []                              # always empty: this clock follows most lines at once
        self.stations: dict[str, tuple[int, int]] = {}          # by name: last stamp, and that line's number
        self.recent: collections.deque[int] = collections.deque(maxlen=RECENT)

    def take(self, line: bytes) -> int | None:
        """Takes a line; returns the time of the clock after it."""
        at = stamp_of(line)
        if at is None:
            return self.time
        self.lines += 1
        self.recent.append(at)
        self.stations[station_of(line)] = at, self.lines
        if self.lines % ACTIVE == 0:
            self.stations = {name: told for name, told in self.stations.items() if told[1] > self.lines - ACTIVE}
        told = [last for last, _ in self.stations.values()] if self.has_several() else list(self.recent)
        middle, before = statistics.median_low(told), self.time
        self.time = max(one for one in told if one <= middle + self.tolerance())
        self.leaps += before is not None and abs(self.time - before) > self.tolerance()
        return self.time

    def released(self, line: bytes) -> list[Timed]:
        """Returns the lines to write after taking a line, in order, as they arrived and with their times."""
        self.held.append(Held(line, stamp_of(line), self.lines, self.leaps, self.time or 0))
        found: list[Timed] = []
        while self.held and self.is_decided(self.held[0]):
            found.append(self.timed(self.held.popleft()))
        return found

    def last(self) -> tuple[list[Timed], int]:
        """Returns the lines that still wait at the end of the stream, and the number of dropped ones, which are ahead
        of the clock."""
        held, self.held = self.held, collections.deque()
        kept = [one for one in held if not self.is_ahead(one)]
        return [(one.line, one.line) for one in kept], len(held) - len(kept)

    def is_ahead(self, one: Held) -> bool:
        """Returns whether a line is ahead of the clock by more than the tolerance."""
        return one.at is not None and self.time is not None and one.at > self.time + self.tolerance()

    def is_decided(self, one: Held) -> bool:
        """Returns whether a line no longer needs to wait for the clock."""
        if one.at is None or self.time is None or not self.is_ahead(one):
            return True
        known = self.offsets.get(station_of(one.line))
        patience = 2 * ACTIVE if self.has_several() else RECENT
        return self.lines >= one.number + patience or known is not None and abs(one.at - self.time -
                                                                                known) <= self.tolerance()

    def has_several(self) -> bool:
        """Returns whether enough stations have names to compare their clocks."""
        return len(self.stations) >= LEAST_STATIONS

    def tolerance(self) -> int:
        """Returns the seconds that a stamp may be ahead of the median."""
        return self.slack if self.has_several() else AHEAD

    def timed(self, one: Held) -> Timed:
        """Returns a line as it arrived, and with its time. If its own time is ahead of the clock at its arrival, it
        gets that clock's time; a leap of the clock since then counts."""
        if one.at is None or self.time is None or not self.is_ahead(one):
            return one.line, one.line
        at = one.time if one.leaps == self.leaps else self.time
        self.offsets[station_of(one.line)] = one.at - at
        if len(self.offsets) > MOST_OFFSETS:
            del self.offsets[next(iter(self.offsets))]
        try:
            _, more, rest = blocks(one.line)
        except Unsure:
            return one.line, one.line
        return one.line, block(at, more) + rest


def day_of(at: int) -> str:
    """Returns the day of a time in UTC."""
    return time.strftime("%Y-%m-%d", time.gmtime(at))


def begin_of(day: str) -> int:
    """Returns the start of a day."""
    return calendar.timegm(time.strptime(day, "%Y-%m-%d"))


def days_in(folder: str) -> list[str]:
    """Returns the days that have a file in a folder, in order."""
    return sorted(name[:-4] for name in os.listdir(folder) if name.endswith(".log") and len(name) == 14)


class DayFiles:
    """A folder with one file of lines per day; the last file grows."""

    def __init__(self, folder: str) -> None:
        self.folder = folder
        self.day: str | None = None
        self.out: BinaryIO | None = None
        self.length = 0                         # of the last file, including buffered bytes
        os.makedirs(folder, exist_ok=True)
        days = self.days()
        if days:
            self.open(days[-1])

    def days(self) -> list[str]:
        """Returns the days that have a file, in order."""
        return days_in(self.folder)

    def path(self, day: str) -> str:
        """Returns the file of a day."""
        return os.path.join(self.folder, day + ".log")

    def open(self, day: str) -> None:
        """Opens a day's file and continues it after its last whole line."""
        if self.out:
            self.out.close()
        out = open(self.path(day), "ab")
        out.truncate(whole_length(self.path(day)))
        self.day, self.out, self.length = day, out, out.seek(0, os.SEEK_END)

    def write(self, line: bytes, at: int) -> None:
        """Writes a line at a time of the clock; the days never go back."""
        day = day_of(at)
        if self.out is None or self.day is None or day > self.day:
            self.open(day)
        assert self.out is not None
        self.out.write(line)
        self.length += len(line)

    def flush(self) -> None:
        """Writes the buffered bytes."""
        if self.out:
            self.out.flush()

    def place(self) -> Mark:
        """Returns the place after everything written so far."""
        assert self.day is not None and self.out is not None        # a line was written
        return self.day, self.length

    def place_for(self, at: int) -> Mark:
        """Returns the place at which a line would go at a time of the clock."""
        day = day_of(at)
        return (day, 0) if self.out is None or self.day is None or day > self.day else self.place()

    def add_marks(self, marks: dict[int, Mark]) -> None:
        """Stores the places at which the lines of some times begin, after writing these lines."""
        for number, (day, offset) in marks.items():
            with open(self.marks_path(day), "a", encoding="ascii") as out:
                out.write(f"{number} {offset}\n")

    def marks_path(self, day: str) -> str:
        """Returns the path of a day's marks."""
        return os.path.join(self.folder, day + ".marks")

    def marks(self, day: str) -> dict[int, Mark]:
        """Returns the stored marks of a day. It ignores incomplete lines, and places after the end of the day's file.
        """
        try:
            with open(self.marks_path(day), encoding="ascii") as source:
                told = [line.split() for line in source if MARK.fullmatch(line)]
        except (OSError, ValueError):
            return {}
        size = os.path.getsize(self.path(day))
        return {int(number): (day, int(offset)) for number, offset in told if int(offset) <= size}

    def close(self) -> None:
        """Closes the file of the last day."""
        if self.out:
            self.out.close()
        self.out = None

    def beginning(self, at: int) -> Mark:
        """Returns the place from which to search for the lines of a time: the first day's file that may have one."""
        return next((day for day in self.days() if day >= day_of(at)), day_of(at)), 0

    def after(self, day: str) -> str | None:
        """Returns the next day that has a file."""
        return next((later for later in self.days() if later > day), None)

    def blocks(self, place: Mark, goes_on: Callable[[], Mark | None]) -> Iterator[bytes]:
        """Yields the bytes from a place as they arrive, up to the place that `goes_on` returns. Yields an empty block
        while there are none."""
        day, offset = place
        while True:
            limit = goes_on()                          # before the read below, which then gets all lines up to it
            is_last, most = day == self.day, BLOCK
            later = None if is_last else self.after(day)
            if limit and limit[0] == day:
                most = min(most, limit[1] - offset)
            found = b"" if is_last and offset >= self.length else read_at(self.path(day), offset, most)
            offset += len(found)
            if found:
                yield found
            elif limit and (day, offset) >= limit:
                return
            elif later:
                day, offset = later, 0
            else:
                yield b""


def read_at(path: str, offset: int, most: int) -> bytes:
    """Returns at most `most` bytes of a file from an offset."""
    if most <= 0 or not os.path.exists(path):
        return b""
    with open(path, "rb") as source:
        source.seek(offset)
        return source.read(most)


def whole_length(path: str) -> int:
    """Returns the length of a file up to its last line feed."""
    size = os.path.getsize(path)
    with open(path, "rb") as source:
        while size:
            begin = max(0, size - (1 << 16))
            source.seek(begin)
            at = source.read(size - begin).rfind(b"\n")
            if at >= 0:
                return begin + at + 1
            size = begin
    return 0


def lines_of(path: str, offset: int = 0) -> Iterator[bytes]:
    """Yields the lines of a file from an offset."""
    try:
        with open(path, "rb") as source:
            source.seek(offset)
            yield from source
    except OSError as error:
        raise Fault(f"cannot read {path}: {reason(error)}") from None
