"""Motion on the plane in metres and seconds: straight motion, the path of a plan, and the closest approach."""
from __future__ import annotations

import math
from dataclasses import dataclass

from colregs.model.tracks import toward
from colregs.pilot.states import Plan, Track, swing

KNOT = 1852 / 3600     # metres per second

Place = tuple[float, float]


def velocity(track: Track) -> Place:
    """Returns the velocity of a course and a speed, in metres per second to the east and to the north."""
    angle = math.radians(track.course)
    return track.speed * KNOT * math.sin(angle), track.speed * KNOT * math.cos(angle)


def moved(place: Place, track: Track, seconds: float) -> Place:
    """Returns the place after `seconds` on a course at a speed."""
    east, north = velocity(track)
    return place[0] + east * seconds, place[1] + north * seconds


@dataclass(frozen=True)
class Rates:
    """How fast a vessel turns (degrees per second) and changes speed (knots per second)."""

    turn: float
    speed: float


@dataclass(frozen=True)
class Approach:
    """The least distance in metres, and the seconds from now until then."""

    distance: float
    seconds: float


def turned(now: Track, aim: Track, rates: Rates, seconds: float) -> Track:
    """Returns the course and speed after `seconds` of turning and changing speed toward an aim."""
    course = now.course + toward(0, swing(now.course, aim.course), rates.turn * seconds)
    return Track(course % 360, toward(now.speed, aim.speed, rates.speed * seconds))


def planned_path(place: Place, reported: Track, plan: Plan, rates: Rates, tick: int, begins: int) -> list[Place]:
    """Returns own ship's place at each tick from `begins` to the plan's end. At each tick she turns toward the leg's
    order and then moves."""
    path, state = [place], reported
    for now in range(begins, plan.until, tick):
        leg = plan.leg_at(now)
        if leg is None:
            break
        state = turned(state, Track(leg.course, leg.speed), rates, tick)
        path.append(moved(path[-1], state, tick))
    return path


def straight_approach(apart: Place, drift: Place) -> Approach:
    """Returns the closest approach from now on of two vessels that keep course and speed; `apart` is the other's
    relative place, `drift` its change in metres per second."""
    square = drift[0] ** 2 + drift[1] ** 2
    seconds = max(0.0, -(apart[0] * drift[0] + apart[1] * drift[1]) / square) if square > 1e-9 else 0.0
    return Approach(math.hypot(apart[0] + drift[0] * seconds, apart[1] + drift[1] * seconds), seconds)


def path_approach(path: list[Place], other: Place, track: Track, tick: int) -> Approach:
    """Returns the closest approach along a path, one place per tick, to a vessel that keeps course and speed."""
    best = Approach(math.dist(path[0], other), 0.0)
    for k, (one, two) in enumerate(zip(path, path[1:])):
        first, second = moved(other, track, k * tick), moved(other, track, (k + 1) * tick)
        apart = first[0] - one[0], first[1] - one[1]
        change = second[0] - two[0] - apart[0], second[1] - two[1] - apart[1]
        square = change[0] ** 2 + change[1] ** 2
        part = max(0.0, min(1.0, -(apart[0] * change[0] + apart[1] * change[1]) / square)) if square > 1e-9 else 0.0
        distance = math.hypot(apart[0] + change[0] * part, apart[1] + change[1] * part)
        if distance < best.distance:
            best = Approach(distance, (k + part) * tick)
    return best
