"""Leaves out reports of a track that straight lines between the others replace, to keep the page and the map of a long
day small.

It drops a report if linear interpolation in time between its two remaining neighbours stays within a tolerance of its
place, speed and course. The tolerance is small in the meetings of a vessel; elsewhere it is what a screen can show of a
whole day. The program's reports and the database have all points.
"""
import math
from collections.abc import Iterator, Mapping, Sequence
from dataclasses import dataclass

from colregs.model.reports import Case
from colregs.model.tracks import NONE, Track

SMALL = 20000           # a case with at most this many reports stays whole
AROUND = 600            # the small tolerance applies from this many seconds before a meeting to as many after it
Kept = Mapping[int, Sequence[Sequence[int]]]        # by vessel: the indices of the remaining reports, part by part


@dataclass(frozen=True)
class Tolerance:
    """How far a dropped report may lie from the straight line: in metres, 1/10 knot and 1/10 degree."""

    metres: float
    speed: float
    course: float


FINE, COARSE = Tolerance(2, 2, 15), Tolerance(15, 10, 80)


def parts_of(track: Track, gap: int) -> Iterator[range]:
    """Yields the indices of the reports of each part of a track. A part ends if the next report is more than a gap
    later."""
    begin = 0
    for k in range(1, len(track.times) + 1):
        if k == len(track.times) or track.times[k] - track.times[k - 1] > gap:
            yield range(begin, k)
            begin = k


class Cone:
    """The slopes of straight lines from a first report that pass within a tolerance of all values since."""

    def __init__(self, tolerance: float) -> None:
        self.tolerance, self.low, self.high = tolerance, -math.inf, math.inf

    def takes(self, seconds: int, change: float) -> bool:
        """Adds a value by its change since the first report; returns whether the straight line to it passes all values
        before it."""
        fits = self.low * seconds <= change <= self.high * seconds
        self.low = max(self.low, (change - self.tolerance) / seconds)
        self.high = min(self.high, (change + self.tolerance) / seconds)
        return fits


def turn(first: int, second: int) -> int:
    """Returns the difference of two courses in 1/10 degree, the shorter way round."""
    return (second - first + 1800) % 3600 - 1800


def kept_in(track: Track, part: range, fine: list[tuple[int, int]]) -> Iterator[int]:
    """Yields the indices of the remaining reports of a part of a track; `fine` are the times with the small tolerance,
    in order."""
    anchor, k, at = part[0], part[0] + 1, 0
    yield anchor
    while k < part.stop:
        while at < len(fine) and fine[at][1] < track.times[anchor]:
            at += 1
        is_fine = at < len(fine) and fine[at][0] <= track.times[anchor]
        until = math.inf if is_fine or at == len(fine) else fine[at][0]
        k = last_on_way(track, anchor, part.stop, FINE if is_fine else COARSE, until)
        yield k
        anchor, k = k, k + 1


def last_on_way(track: Track, anchor: int, stop: int, tolerance: Tolerance, until: float) -> int:
    """Returns the index of the last report before a time whose straight line from the anchor passes all between."""
    times, xs, ys, speeds, courses = track.times, track.xs, track.ys, track.speeds, track.courses
    cones = [Cone(value) for value in (tolerance.metres, tolerance.metres, tolerance.speed, tolerance.course)]
    for k in range(anchor + 1, stop):
        seconds = times[k] - times[anchor]
        if seconds <= 0 or times[k] > until and k > anchor + 1:
            return max(anchor + 1, k - 1)
        unlike = (speeds[k] == NONE) != (speeds[anchor] == NONE) or (courses[k] == NONE) != (courses[anchor] == NONE)
        changes = xs[k] - xs[anchor], ys[k] - ys[anchor], speeds[k] - speeds[anchor], turn(
            courses[anchor], courses[k]) if speeds[k] > 5 else 0
        fits = [cone.takes(seconds, change) for cone, change in zip(cones, changes)]
        if (unlike or not all(fits)) and k > anchor + 1:
            return k - 1
    return stop - 1


def meeting_times(case: Case) -> dict[int, list[tuple[int, int]]]:
    """Returns the times around each vessel's meetings and verdicts, in seconds after the window's start, as ordered
    spans that do not overlap."""
    found: dict[int, list[tuple[int, int]]] = {}
    for row in sorted(case.stretches(), key=lambda row: row.first):
        begin, end = row.first * case.tick - AROUND, (row.last + 1) * case.tick + AROUND
        for mmsi in row.pair:
            spans = found.setdefault(mmsi, [])
            if spans and begin <= spans[-1][1]:
                spans[-1] = spans[-1][0], max(end, spans[-1][1])
            else:
                spans.append((begin, end))
    return found


def whole(case: Case) -> Kept:
    """Returns the indices of all reports, part by part."""
    return {mmsi: list(parts_of(track, case.gap)) for mmsi, track in case.tracks.items()}


def is_whole(case: Case, kept_: Kept) -> bool:
    """Returns whether all reports stay."""
    return all(sum(map(len, kept_[mmsi])) == len(track.times) for mmsi, track in case.tracks.items())


def kept(case: Case, is_full: bool = False, has_meetings: bool = True) -> Kept:
    """Returns for each vessel the indices of the remaining reports, part by part: all of them in a small case, or with
    `is_full`.

    With `has_meetings` the tolerance is small around a vessel's meetings. A map with lines for the meetings does not
    need that.
    """
    if is_full or sum(len(track.times) for track in case.tracks.values()) <= SMALL:
        return whole(case)
    fine = meeting_times(case) if has_meetings else {}
    return {
        mmsi: [list(kept_in(track, part, fine.get(mmsi, []))) for part in parts_of(track, case.gap)]
        for mmsi, track in case.tracks.items()
    }
