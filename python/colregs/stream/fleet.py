"""The vessels of a growing stream: their last reports that the program accepted, and their static data.

Positions come from the program's rows `point`. Names, types, lengths and navigational statuses come from the lines,
decoded like the program does.
"""
import bisect
import time
from array import array
from collections.abc import Iterator
from dataclasses import dataclass, field
from typing import Any

from colregs.io.lines import Bits, Joiner, bits_of, sender_of, sentence_of
from colregs.io.sieve import LONE, PART
from colregs.model.rows import METRE
from colregs.model.ships import status_words, type_words
from colregs.model.tracks import NONE, Place, Track
from colregs.shares.types import LEAST, MOST, ship_type

SPAN, LEAST_REPORTS = 2400, 240     # a track has the reports of SPAN s, and at least LEAST_REPORTS reports
MOST_ABOUT = 20000                  # the most vessels with stored names: those heard last
CUT = 32                            # a track is cut after this many reports are too old
# the first letters of payloads of position reports, and of those with a vessel's own data
CLASS_A, CLASS_B, STATIC = b"123", b"B", b"5CH"
NO_HEADING, HEADING = 360, 23       # a heading from this on is none; letters of a payload up to the heading
# bits that the message needs, and the first of the 120 of the name
NAMES = {5: (422, 112), 19: (312, 143), 24: (160, 40)}
# and of the nine to the bow, followed by the nine to the stern
HULLS = {5: (422, 240), 19: (312, 271), 24: (162, 132)}


@dataclass
class About:
    """A vessel's data from her messages: her name, ITU-R M.1371 type, length in metres, navigational status, and
    heading in degrees."""

    name: str = ""
    kind: int = 0
    length: int = 0
    status: int | None = None
    heading: int | None = None
    heard: int = 0                  # the clock at her last such message


@dataclass
class Ship:
    """A vessel with a position: her last reports by seconds since the Unix epoch, and the time of the last change of
    her position."""

    mmsi: int
    track: Track = field(default_factory=Track)

    @property
    def latest(self) -> int:
        """Returns the time of the last report."""
        return self.track.times[-1]


def name_of(bits: Bits, first: int) -> str:
    """Returns up to 20 six-bit letters from a bit; an `@` ends them."""
    codes = (bits.number(first + 6 * k, 6) for k in range(20))
    return "".join(chr(code + 64 if code < 32 else code) for code in codes).partition("@")[0].rstrip()


class Fleet:
    """Takes the lines of a stream and the points of the program, and forgets vessels after a long silence."""

    def __init__(self, gap: int) -> None:
        self.gap, self.joiner = gap, Joiner()
        self.ships: dict[int, Ship] = {}
        self.about: dict[int, About] = {}
        # vessels with a newer report, or new data, since a user of this fleet emptied the sets
        self.moved: set[int] = set()
        self.told: set[int] = set()
        self.gone: set[int] = set()
        self.clock = 0                      # the time of the latest point
        self.arrived = time.monotonic()     # the arrival of the last point, by this machine's clock

    # data from lines

    def take_line(self, line: bytes, clock: int) -> None:
        """Takes a line, with the time of the stream's clock."""
        found = LONE.match(line)
        if found and found[2][:1] in CLASS_A + CLASS_B:
            self.take_position(found[2], line[found.start(2):found.start(2) + HEADING], line, clock)
        elif found and found[2][:1] in STATIC or not found and PART.match(line):
            self.take_static(line, clock)

    def take_position(self, head: bytes, payload: bytes, line: bytes, clock: int) -> None:
        """Takes the navigational status and the heading in the first letters of a position report's payload."""
        mmsi = sender_of(head)
        if mmsi is None or not LEAST <= mmsi <= MOST or len(payload) < HEADING:
            return
        a, b, c = map(sentence_value, payload[HEADING - 3:])
        is_a = head[:1] in CLASS_A
        status = sentence_value(head[6]) & 15 if is_a else None
        number = (b & 15) << 5 | c >> 1 if is_a else (a & 3) << 7 | b << 1 | c >> 5
        heading = number if number < NO_HEADING else None
        known = self.about.get(mmsi)
        if known and (known.status, known.heading) == (status, heading):
            known.heard = clock
        elif sentence_of(line) is not None:                 # its checksum is right
            known = self.note(mmsi, clock)
            if known.status != status:
                self.told.add(mmsi)
            known.status, known.heading = status, heading

    def take_static(self, line: bytes, clock: int) -> None:
        """Takes a sentence that may contain or complete a vessel's static data."""
        sentence = sentence_of(line)
        message = self.joiner.take(sentence, clock) if sentence else None
        if message is None:
            return
        bits = bits_of(message.parts)
        kind, mmsi = (bits.number(0, 6), bits.number(8, 30)) if bits.width >= 40 else (0, 0)
        if kind not in NAMES or not LEAST <= mmsi <= MOST:
            return
        known = self.note(mmsi, clock)
        before = known.name, known.kind, known.length
        is_second = kind == 24 and bits.number(38, 2) == 1
        if not is_second and bits.width >= NAMES[kind][0]:
            known.name = name_of(bits, NAMES[kind][1]) or known.name
        if found := ship_type(bits):
            known.kind = found[1] or known.kind
            known.length = bits.number(HULLS[kind][1], 9) + bits.number(HULLS[kind][1] + 9, 9) or known.length
        if before != (known.name, known.kind, known.length):
            self.told.add(mmsi)

    def note(self, mmsi: int, clock: int) -> About:
        """Returns the data of a vessel that is heard now."""
        known = self.about.setdefault(mmsi, About())
        known.heard = clock
        if len(self.about) > MOST_ABOUT:
            latest = sorted(self.about, key=lambda one: self.about[one].heard)[MOST_ABOUT // 4:]
            self.about = {one: self.about[one] for one in latest}
        return known

    # accepted reports

    def take_point(self, row: str) -> None:
        """Takes a row `point`. Two windows report the same points, so this ignores a point that is not newer than the
        vessel's last one."""
        self.arrived = time.monotonic()
        fields = row.split(",")
        mmsi, at = int(fields[1]), int(fields[2])
        ship = self.ships.get(mmsi)
        if ship is None:
            ship = self.ships[mmsi] = Ship(mmsi)
            self.told.add(mmsi)
        track = ship.track
        if track.times and at <= track.times[-1]:
            return
        track.add(at, int(fields[3]) / METRE, int(fields[4]) / METRE, int(fields[5] or NONE), int(fields[6] or NONE))
        self.cut(track, at - SPAN)
        self.clock = max(self.clock, at)
        self.moved.add(mmsi)
        self.gone.discard(mmsi)

    @staticmethod
    def cut(track: Track, first: int) -> None:
        """Drops the reports before a time, if they are many."""
        k = min(bisect.bisect_left(track.times, first), len(track.times) - LEAST_REPORTS)
        if k > CUT:
            columns: list[array[Any]] = [track.times, track.xs, track.ys, track.speeds, track.courses]
            for column in columns:
                del column[:k]

    def forget(self, before: int) -> None:
        """Forgets the vessels whose last report is older than a time."""
        for mmsi in [mmsi for mmsi, ship in self.ships.items() if ship.latest < before]:
            del self.ships[mmsi]
            self.moved.discard(mmsi)
            self.gone.add(mmsi)

    # questions

    def name(self, mmsi: int) -> str:
        """Returns the name of a vessel, or her MMSI."""
        known = self.about.get(mmsi)
        return known.name if known and known.name else str(mmsi)

    def kind_words(self, mmsi: int) -> str:
        """Returns the type of a vessel in words, or an empty text."""
        known = self.about.get(mmsi)
        return type_words(known.kind) if known else ""

    def status_words(self, mmsi: int) -> str:
        """Returns the navigational status of a vessel in words, or an empty text."""
        known = self.about.get(mmsi)
        return status_words(known.status) if known else ""

    def place(self, mmsi: int, at: float) -> Place | None:
        """Returns the place of a vessel at a time, interpolated between two reports, or the place of her last report if
        that is older; None if it is unknown."""
        ship = self.ships.get(mmsi)
        if ship is None or not ship.track.times or at < ship.track.times[0]:
            return None
        track = ship.track
        k = bisect.bisect_right(track.times, at) - 1
        if k + 1 == len(track.times):
            return track.xs[k], track.ys[k]
        part = (at - track.times[k]) / (track.times[k + 1] - track.times[k])
        return (
            track.xs[k] + (track.xs[k + 1] - track.xs[k]) * part,
            track.ys[k] + (track.ys[k + 1] - track.ys[k]) * part,
        )

    def all_about(self) -> Iterator[tuple[int, About]]:
        """Yields the data of the vessels with a position."""
        for mmsi in self.ships:
            yield mmsi, self.about.get(mmsi, About())


def sentence_value(letter: int) -> int:
    """Returns the six bits of a payload's letter."""
    return letter - 48 if letter < 88 else letter - 56
