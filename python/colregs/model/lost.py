"""Which meetings end because one of the two vessels is no longer heard, and how near the two would have come if both
had gone on.

The program follows two vessels only while both are seen, with at most `log.gap` seconds between two reports. If one
falls silent, the meeting ends with the last step at which both are seen, and its least distance is that of the part
that was heard: no row says that the two went on. What would have followed is computed here, from the last reports'
positions, courses and speeds. It is an estimate of this tool, not a row of the program.
"""
import bisect
import math
from collections.abc import Mapping
from dataclasses import dataclass

from colregs.model.rest import TENTH
from colregs.model.rows import Stretch
from colregs.model.rules import clock
from colregs.model.tracks import NONE, Place, Track

LONGEST = 3600          # s: both are taken to keep course and speed for at most this time


@dataclass(frozen=True, slots=True)
class Ahead:
    """The least distance in metres if both keep course and speed, and its moment in seconds after the window's
    start."""

    least: float
    at: float


@dataclass(frozen=True, slots=True)
class Lost:
    """The end of a meeting whose vessels are no longer both heard: who fell silent, and the last report in seconds
    after the window's start.

    `ahead` is None if a last report has no course or speed and no report shortly before it shows them.
    """

    who: tuple[int, ...]
    at: int
    ahead: Ahead | None

    def still_closing(self, least: float) -> bool:
        """Returns whether the two would have come nearer than the least distance that was heard, or whether that is
        unknown."""
        return self.ahead is None or self.ahead.least < least and self.ahead.at > self.at


def silent_after(track: Track, moment: int, gap: int) -> int | None:
    """Returns the number of the vessel's last report before a silence of more than the gap that holds the moment, or
    None if she is seen then."""
    k = bisect.bisect_right(track.times, moment) - 1
    if k < 0 or (k + 1 < len(track.times) and track.times[k + 1] - track.times[k] <= gap):
        return None
    if track.times[k] == moment and k > 0 and moment - track.times[k - 1] <= gap:
        return None
    return k


def velocity(track: Track, k: int, gap: int) -> Place | None:
    """Returns metres per second east and north at report `k`: as reported, otherwise by the way from the report before
    it; None if neither is known."""
    speed, course = track.speeds[k], track.courses[k]
    if speed == 0:
        return 0.0, 0.0
    if speed != NONE and course != NONE:
        angle = math.radians(course / 10)
        return speed * TENTH * math.sin(angle), speed * TENTH * math.cos(angle)
    if k == 0 or not 0 < track.times[k] - track.times[k - 1] <= gap:
        return None
    seconds = track.times[k] - track.times[k - 1]
    return (track.xs[k] - track.xs[k - 1]) / seconds, (track.ys[k] - track.ys[k - 1]) / seconds


def nearest_ahead(one: Track, two: Track, at: int, gap: int) -> Ahead | None:
    """Returns the closest point of approach from a moment on, by each vessel's last report at or before it; None if a
    velocity is unknown."""
    numbers = [bisect.bisect_right(track.times, at) - 1 for track in (one, two)]
    if min(numbers) < 0:
        return None
    ways = [velocity(track, k, gap) for track, k in zip((one, two), numbers)]
    if ways[0] is None or ways[1] is None:
        return None
    (a, b), (c, d) = ways[0], ways[1]
    places = [(track.xs[k] + u * (at - track.times[k]), track.ys[k] + v * (at - track.times[k]))
              for track, k, (u, v) in zip((one, two), numbers, ((a, b), (c, d)))]
    x, y, u, v = places[1][0] - places[0][0], places[1][1] - places[0][1], c - a, d - b
    square = u * u + v * v
    after = 0.0 if square == 0 else max(0.0, min(LONGEST, -(x * u + y * v) / square))
    return Ahead(math.hypot(x + u * after, y + v * after), at + after)


def lost(tracks: Mapping[int, Track], row: Stretch, tick: int, steps: int, gap: int) -> Lost | None:
    """Returns how the meeting of a row ends if one of the two is no longer heard, or None if it ends otherwise.

    A meeting that the end of the window or of the whole log ends is none of these: a vessel is lost only if others are
    heard later than a gap.
    """
    if row.last + 2 > steps:
        return None
    moment, until = (row.last + 2) * tick, max((track.times[-1] for track in tracks.values() if track.times), default=0)
    silent = {
        mmsi: tracks[mmsi].times[k] for mmsi in row.pair if (k := silent_after(tracks[mmsi], moment, gap)) is not None
    }
    silent = {mmsi: at for mmsi, at in silent.items() if until - at > gap}
    if not silent:
        return None
    at = min(silent.values())
    one, two = (tracks[mmsi] for mmsi in row.pair)
    return Lost(tuple(silent), at, nearest_ahead(one, two, at, gap))


def words(found: Lost, least: float, start: int) -> str:
    """Returns the end of a meeting in words, with the least distance in metres that was heard and the window's start
    since the Unix epoch."""
    told = f"contact lost {clock(start + found.at)}; nearest while both were heard {least:,.0f} m; "
    if found.ahead is None:
        return told + "how near they came cannot be computed, for the last reports show no course or speed"
    if not found.still_closing(least):
        return told + "by the last reports they were not closing to less"
    at = clock(round(start + found.ahead.at))
    return told + f"if both went on: {found.ahead.least:,.0f} m at {at} (computed from their last reports)"
