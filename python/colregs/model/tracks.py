"""Where vessels are: their accepted reports, and their places between these, straight from one report to the next."""
import bisect
import math
from array import array
from collections.abc import Iterator, Mapping
from typing import overload

NONE = -1               # stands for a speed or a course that a report does not have

Place = tuple[float, float]     # metres east and north of the scenario's reference


class Track:
    """A vessel's accepted reports: seconds after the window's start, metres east and north, 1/10 knot and 1/10
    degree."""

    def __init__(self, times: "array[int] | None" = None, xs: "array[float] | None" = None,
                 ys: "array[float] | None" = None, speeds: "array[int] | None" = None,
                 courses: "array[int] | None" = None) -> None:
        self.times, self.xs, self.ys = times or array("q"), xs or array("d"), ys or array("d")
        self.speeds, self.courses = speeds or array("h"), courses or array("h")

    def add(self, at: int, x: float, y: float, speed: int, course: int) -> None:
        """Adds a report after those that are there."""
        self.times.append(at)
        self.xs.append(x)
        self.ys.append(y)
        self.speeds.append(speed)
        self.courses.append(course)

    def between(self, first: float, last: float) -> range:
        """Returns the numbers of the reports from the last one at or before a time to the first one at or after
        another."""
        begin = max(0, bisect.bisect_right(self.times, first) - 1)
        return range(begin, min(len(self.times), bisect.bisect_left(self.times, last) + 1))


class Places:
    """A vessel's place at each tick of a window, or None if no leg of hers holds the tick."""

    def __init__(self, track: Track, gap: int, tick: int, steps: int) -> None:
        self.xs, self.ys = array("d", [math.nan]) * (steps + 1), array("d", [math.nan]) * (steps + 1)
        for first, last, x, u, y, v in zip(track.times, track.times[1:], track.xs, track.xs[1:], track.ys,
                                           track.ys[1:]):
            if 0 < last - first <= gap:
                for step in range(max(0, -(-first // tick)), min(steps, last // tick) + 1):
                    part = (step * tick - first) / (last - first)
                    self.xs[step], self.ys[step] = x + (u - x) * part, y + (v - y) * part

    def __len__(self) -> int:
        return len(self.xs)

    @overload
    def __getitem__(self, key: int) -> Place | None: ...

    @overload
    def __getitem__(self, key: slice) -> list[Place | None]: ...

    def __getitem__(self, key: int | slice) -> Place | None | list[Place | None]:
        if isinstance(key, slice):
            return [self[k] for k in range(*key.indices(len(self.xs)))]
        x = self.xs[key]
        return None if math.isnan(x) else (x, self.ys[key])

    def __iter__(self) -> Iterator[Place | None]:
        return (self[k] for k in range(len(self.xs)))

    def at(self, step: int) -> Place:
        """Returns the place at a tick at which the vessel is seen."""
        return self.xs[step], self.ys[step]

    def extent(self) -> tuple[Place, Place] | None:
        """Returns the south-western and the north-eastern corner of all places, or None if there is no place."""
        xs, ys = ([value for value in values if not math.isnan(value)] for values in (self.xs, self.ys))
        return ((min(xs), min(ys)), (max(xs), max(ys))) if xs else None

    def keep_only(self, first: int, last: int) -> None:
        """Forgets the places outside these ticks."""
        for k in [*range(0, first), *range(last + 1, len(self.xs))]:
            self.xs[k] = math.nan


class AllPlaces(Mapping[int, Places]):
    """The places of each vessel by MMSI, computed when they are asked for first."""

    def __init__(self, tracks: dict[int, Track], gap: int, tick: int, steps: int) -> None:
        self.tracks, self.gap, self.tick, self.steps = tracks, gap, tick, steps
        self.known: dict[int, Places] = {}

    def __getitem__(self, mmsi: int) -> Places:
        if mmsi not in self.known:
            self.known[mmsi] = Places(self.tracks[mmsi], self.gap, self.tick, self.steps)
        return self.known[mmsi]

    def __iter__(self) -> Iterator[int]:
        return iter(self.tracks)

    def __len__(self) -> int:
        return len(self.tracks)


def toward(now: float, aim: float, most: float) -> float:
    """Returns the value that is nearest to an aim after a change of at most `most`."""
    return aim if abs(aim - now) <= most else now + math.copysign(most, aim - now)


def along(a: Place, b: Place, part: float) -> Place:
    """Returns the place on the straight line from `a` to `b` after a part of it, from 0 to 1."""
    return a[0] + (b[0] - a[0]) * part, a[1] + (b[1] - a[1]) * part


def least_part(p: Place, q: Place) -> float:
    """Returns the part of the straight line from `p` to `q` that is nearest to the origin."""
    w = q[0] - p[0], q[1] - p[1]
    square = w[0] ** 2 + w[1] ** 2
    return 0 if square == 0 else max(0, min(1, -(p[0] * w[0] + p[1] * w[1]) / square))
