"""Converts choices relative to the wanted track into choices relative to own ship's latest report."""
from __future__ import annotations

from collections.abc import Iterable, Sequence
from dataclasses import dataclass

from colregs.pilot.states import Track, swing

MOST_SPEED = 1022      # 1/10 knot: the greatest speed in a report, and the greatest change in a scenario


@dataclass(frozen=True)
class Offsets:
    """Choices relative to the track: courses in 1/10 degree and speeds in 1/10 knot, in the order of trying."""

    courses: tuple[int, ...]
    speeds: tuple[int, ...]


@dataclass(frozen=True)
class Choices:
    """Choices relative to own ship's reported course and speed, in the same units and order, for a scenario."""

    courses: tuple[int, ...]
    speeds: tuple[int, ...]


# 1/10 degree: the courses of an escape in addition to the scenario's choices
WIDE_COURSES = (1200, -1200, 1500, -1500, 1800)


def distinct(values: Iterable[int]) -> tuple[int, ...]:
    """Returns the values without duplicates, in the order of first occurrence."""
    return tuple(dict.fromkeys(values))


def rewritten(offsets: Offsets, track: Track, reported: Track, without: Sequence[float] = ()) -> Choices:
    """Returns the choices that lead from own ship's reported course and speed to the track and its offsets.

    `without` has the courses (degrees) to leave out. Speeds are limited to 0 to 102.2 knots.
    """
    refused = {round(course * 10) % 3600 for course in without}
    courses = [round(track.course * 10) + offset for offset in offsets.courses]
    speeds = [min(MOST_SPEED, max(0, round(track.speed * 10) + offset)) for offset in offsets.speeds]
    now, way = round(reported.course * 10), round(reported.speed * 10)
    return Choices(
        distinct(round(swing(now / 10, course / 10) * 10) for course in courses if course % 3600 not in refused),
        distinct(speed - way for speed in speeds))


def widened(offsets: Offsets, track: Track, holding: Track | None) -> Offsets:
    """Returns the choices of an escape: first the present course and speed, then `offsets`, then larger turns and a
    stop."""
    first = ((round(swing(track.course, holding.course) * 10),), (round(
        (holding.speed - track.speed) * 10),)) if holding else ((), ())
    return Offsets(distinct(first[0] + offsets.courses + WIDE_COURSES),
                   distinct(first[1] + offsets.speeds + (-MOST_SPEED,)))
