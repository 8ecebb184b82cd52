"""Filters the rows of `points` for a join of windows: the reports near the starts of windows, and the vessels that were
at rest all the time.

It runs as a process of its own between the program and a file. A `check` row has a vessel, a time, two places, a speed
and a course, as `points` writes them. A `still` row has a vessel who never made half a knot, by her reports or, where
these have no speed, by her way to the next one.

Most rows only say that a vessel goes on, so rows are read in pieces: those of vessels who moved are skipped, and a
piece is searched for reports near a beginning only if it may hold some.
"""
import json
import math
import sys
from collections.abc import Iterable, Iterator

SLOWEST = 5             # 1/10 knot
TENTH = 463 / 9000      # metres a second of 1/10 knot
PIECE = 1 << 19         # bytes of rows that are read at once
SLOW = frozenset(b"%d" % speed for speed in range(SLOWEST))
MMSI = slice(6, 15)     # where a row of `points` has its nine digits


class Stillness:
    """The vessels at rest in all reports so far."""

    def __init__(self) -> None:
        self.still, self.moved = set[bytes](), set[bytes]()
        # the last report of a vessel who lay still so far, if it has no speed
        self.before: dict[bytes, tuple[int, int, int]] = {}

    def take(self, mmsi: bytes, time: int, x: int, y: int, speed: bytes) -> None:
        """Takes one report of a vessel who lay still so far, in the order of times."""
        before, tenths = self.before.pop(mmsi, None), int(speed or 0)
        way = 0.0 if before is None else math.dist((x, y), before[1:]) / 10000 / max(1, time - before[0]) / TENTH
        if tenths >= SLOWEST or way >= SLOWEST:
            self.still.discard(mmsi)
            self.moved.add(mmsi)
            return
        self.still.add(mmsi)
        if not speed:
            self.before[mmsi] = time, x, y

    def take_rows(self, rows: list[bytes]) -> None:
        """Takes the rows of a piece."""
        still, moved, before = self.still, self.moved, self.before
        for row in rows:
            if row[MMSI] not in moved and row.startswith(b"point,"):
                _, mmsi, at, x, y, speed, _ = row.split(b",", 6)
                if speed not in SLOW or mmsi not in still or mmsi in before:
                    self.take(mmsi, int(at), int(x), int(y), speed)

    def found(self) -> list[bytes]:
        """Returns the vessels who lay still, ascending."""
        return sorted(self.still)


def rows_of(pieces: Iterable[bytes]) -> Iterator[list[bytes]]:
    """Yields the rows of pieces that end anywhere, also within a row."""
    rest = b""
    for piece in pieces:
        *rows, rest = (rest + piece).split(b"\n")
        yield rows
    yield [rest]


def times_within(rows: list[bytes], slack: int) -> tuple[int, int]:
    """Returns the least and the greatest time that a report of a piece can have. A line that is not late is at most
    `slack` seconds behind the clock, and the clock never goes back."""
    first = next((row for row in rows if row.startswith(b"point,")), None)
    last = next((row for row in reversed(rows) if row.startswith(b"point,")), None)
    return (time_of(first) - slack, time_of(last) + slack) if first and last else (1, 0)


def time_of(row: bytes) -> int:
    return int(row.split(b",", 3)[2])


def checks_of(rows: list[bytes], stretches: list[tuple[int, int]]) -> Iterator[bytes]:
    """Yields `check` rows for the reports of a piece in these stretches of time."""
    for row in rows:
        if row.startswith(b"point,"):
            time = time_of(row)
            if any(first <= time <= last for first, last in stretches):
                yield b"check" + row[5:] + b"\n"


def rows_to_keep(pieces: Iterable[bytes], stretches: list[tuple[int, int]], slack: int) -> Iterator[bytes]:
    """Yields `check` rows for the reports in these stretches of time, and a `still` row for each vessel who lay still.
    The pieces are of the rows of `points`, which come in the order of their lines."""
    stillness = Stillness()
    for rows in rows_of(pieces):
        stillness.take_rows(rows)
        least, greatest = times_within(rows, slack)
        if any(first <= greatest and least <= last for first, last in stretches):
            yield from checks_of(rows, stretches)
    for mmsi in stillness.found():
        yield b"still," + mmsi + b"\n"


def main() -> None:
    """Filters standard input; the one argument is the stretches and the slack, as JSON."""
    stretches, slack = json.loads(sys.argv[1])
    pieces = iter(lambda: sys.stdin.buffer.read(PIECE), b"")
    sys.stdout.buffer.writelines(rows_to_keep(pieces, [(int(first), int(last)) for first, last in stretches], slack))
    sys.stdout.buffer.flush()
