"""Clocks for a log without times: a receiver's own UTC (RMC and ZDA of IEC 61162-1), and that of base stations.

Base stations send it in message 4 (ITU-R M.1371). RMC, with HDT for her heading, also says where own ship was.
"""
import re
from collections.abc import Sequence

from colregs.io.forms import seconds_of
from colregs.io.sentences import (NO_COURSE, NO_HEADING, NO_SPEED, Report, class_a, has_sum, lone_message, sentence,
                                  utc_of)

PLAIN = re.compile(rb"\$([A-Z]{2}(?:RMC|ZDA|HDT),[^*$!\\]*|PGHP,1,[^*$!\\]*)\*([0-9A-Fa-f]{2})")
# a date that lags at midnight; the weeks that GPS counts before it begins again
DAY, WEEKS = 86400, 1024 * 7 * 86400
# s: between two times of the receiver farther apart than this, nobody knows the time
LONGEST_GAP = 60
DAMAGED = "a sentence of the receiver with a wrong checksum", "RMC with too few fields"
HEADING = "own ship's heading (HDT)"
BASE_STATION = 4 << 2                    # type 4, not repeated, in the first 8 bits
OLDEST = 852076800                       # 1 January 1997, before there was AIS: an earlier clock is not set


def time_of(day: bytes | Sequence[int], clock: bytes) -> int | None:
    """Returns the time of the fields ddmmyy or (day, month, year), and hhmmss.ss; or None."""
    if not re.fullmatch(rb"\d{6}(?:\.\d*)?", clock):
        return None
    try:
        if isinstance(day, bytes):
            date, year = int(day), int(day[4:])
            day = date // 10000, date // 100 % 100, year + (1900 if year >= 80 else 2000)
        return seconds_of(day[2], day[1], day[0], int(clock[:2]), int(clock[2:4]), int(clock[4:6]))
    except ValueError:
        return None


def angle(digits: bytes, side: bytes) -> int:
    """Returns a latitude or a longitude in 1/10000 minute, from the fields dddmm.mmmm and N, S, E or W."""
    whole, _, part = digits.partition(b".")
    minutes = int(whole[-2:]) * 10000 + int((part + b"0000")[:4]) + (part[4:5] >= b"5")
    value = int(whole[:-2] or 0) * 600000 + minutes
    return -value if side in (b"S", b"W") else value


def tenths(field: bytes, none: int, most: int) -> int:
    """Returns tenths of a field, at most `most`; `none` if it is empty."""
    return min(most, round(float(field) * 10)) if field else none


def base_time(line: bytes) -> int | None:
    """Returns the UTC of a base station in a sentence, or None. One that another station repeated comes late, and is
    skipped."""
    message = lone_message(line)
    if message is None or message.length < 168 or message.number(0, 8) != BASE_STATION:
        return None
    try:
        time = seconds_of(*utc_of(message))
    except ValueError:
        return None
    return time if time >= OLDEST else None


class Fix:
    """An RMC: its time, whether it is valid, and own ship's report without a heading."""

    def __init__(self, fields: Sequence[bytes]) -> None:
        mode = fields[12:13]
        self.valid = fields[2] == b"A" and mode != [b"N"]
        self.time = time_of(fields[9], fields[1])
        self.fields = fields

    def report(self, heading: int) -> Report | None:
        """Returns latitude, longitude, speed, course, heading and second; or None if a field is no number."""
        try:
            latitude, longitude = angle(*self.fields[3:5]), angle(*self.fields[5:7])
            speed, course = tenths(self.fields[7], NO_SPEED, 1022), tenths(self.fields[8], NO_COURSE, 3600) % 3600
        except ValueError:
            return None
        return latitude, longitude, speed, course if self.fields[8] else NO_COURSE, heading, (self.time or 0) % 60


class Receiver:
    """The receiver's clock and own ship's track, by the sentences so far."""

    def __init__(self, mmsi: int | None = None) -> None:
        self.mmsi, self.void, self.rolled = mmsi, False, 0
        self.time: int | None = None                        # the clock
        self.heading: tuple[int, int | None] = NO_HEADING, None
        self.placed_at: int | None = None                   # the time of own ship's last report
        self.latest: Fix | None = None

    def take(self, line: bytes) -> tuple[str, int | None] | None:
        """Returns the name of a sentence's form, and its time if it has one; or None if the line has no such
        sentence."""
        found = PLAIN.search(line)
        if not found:
            return None
        if not has_sum(found[1], found[2]):
            return DAMAGED[0], None
        fields = found[1].split(b",")
        if fields[0] == b"PGHP":
            return self.gatehouse(fields)
        kind = fields[0][2:]
        if kind == b"HDT":
            return self.head(fields)
        return self.fix(fields) if kind == b"RMC" else self.date(fields)

    def gatehouse(self, fields: Sequence[bytes]) -> tuple[str, int | None]:
        """Takes a PGHP, with which Gatehouse's base stations, as the Danish ones, say when the next sentence was
        heard."""
        parts = [int(field) for field in fields[2:8] if re.fullmatch(rb"\d{1,4}", field)]
        try:
            return "PGHP", seconds_of(*parts)
        except (ValueError, TypeError):
            return "PGHP without a time", None

    def head(self, fields: Sequence[bytes]) -> tuple[str, int | None]:
        """Takes own ship's heading."""
        if re.fullmatch(rb"\d{1,3}(?:\.\d+)?", fields[1]):
            self.heading = round(float(fields[1])) % 360, self.time
        return HEADING, None

    def fix(self, fields: Sequence[bytes]) -> tuple[str, int | None]:
        """Takes an RMC."""
        if len(fields) < 10:
            return DAMAGED[1], None
        fix = Fix(fields)
        self.void = not fix.valid
        if not fix.valid:
            return "RMC without a valid fix", None
        if fix.time is None or fix.time < OLDEST:
            return "RMC of a clock that is not set", None
        self.latest = fix
        return "RMC", self.rolled_over(fix.time)

    def date(self, fields: Sequence[bytes]) -> tuple[str, int | None]:
        """Takes a ZDA."""
        if self.void:
            return "ZDA while no fix is valid", None
        day = [int(field) for field in fields[2:5] if re.fullmatch(rb"\d{1,4}", field)]
        time = time_of(day, fields[1]) if len(day) == 3 else None
        if time is None or time < OLDEST:
            return "ZDA of a clock that is not set", None
        return "ZDA", self.rolled_over(time)

    def rolled_over(self, time: int) -> int:
        """Returns the time, set forward if the date lags: by a day at midnight, or by the 1024 weeks after which GPS
        counts from 0 again."""
        if self.time is not None:
            for lag in (DAY, WEEKS):
                if 0 <= time + lag - self.time <= LONGEST_GAP:
                    time += lag
                    self.rolled += 1
        self.time = time
        return time

    def own_report(self, time: int) -> bytes | None:
        """Returns own ship's position report as an AIVDO sentence, at most one per second, if her MMSI is known."""
        heading, at = self.heading
        near = at is not None and self.time is not None and abs(self.time - at) <= 2
        return self.placed(self.latest.report(heading if near else NO_HEADING), time) if self.latest else None

    def placed(self, report: Report | None, time: int) -> bytes | None:
        """Returns a report as an AIVDO sentence, at most one per second, if own ship's MMSI is known."""
        if self.mmsi is None or time == self.placed_at or report is None:
            return None
        self.placed_at = time
        return sentence(class_a(self.mmsi, report), b"AIVDO", b"")
