"""Own ship's intent: a track of one course and one speed, or a route of waypoints."""
from __future__ import annotations

import csv
import math
from dataclasses import dataclass
from typing import Protocol

from colregs.errors import Fault, reason
from colregs.pilot.motion import KNOT, Place
from colregs.pilot.states import Track

LOOK_AHEAD = 1000.0        # m: on a leg she steers for the point this far ahead on the line between its waypoints
EARLY = 30.0               # s: she turns for the next leg this long before a waypoint is abeam
FASTEST = 102.2            # knots


class Wanted(Protocol):
    """Own ship's intent by place."""

    def track_at(self, place: Place | None) -> Track:
        """Returns the course and speed at a place in metres on the plane; without a place, those of the current leg."""
        ...


def track_of_words(word: str) -> Track:
    """Parses a track such as 000,14: degrees and knots. Raises Fault if it is not one."""
    course, comma, speed = word.partition(",")
    try:
        found = Track(float(course), float(speed))
    except ValueError:
        raise Fault(f"`{word}` is not a track; write course and speed, such as 000,14") from None
    if not (comma and 0 <= found.course <= 360 and 0 <= found.speed <= FASTEST):
        raise Fault(f"`{word}` is not a track; the course is 0 to 360 degrees, and the speed 0 to {FASTEST} knots")
    return Track(round(found.course * 10) % 3600 / 10, round(found.speed * 10) / 10)


@dataclass(frozen=True)
class OneTrack:
    """One course and speed, wherever own ship is."""

    track: Track

    def track_at(self, place: Place | None) -> Track:
        """Returns the track."""
        return self.track


class Route:
    """Waypoints in metres on the plane, and the speed in knots on the leg to each. Own ship starts on the leg to the
    second one."""

    def __init__(self, places: list[Place], speeds: list[float]) -> None:
        """`places` has at least two waypoints; the speed of the first is unused."""
        self.places, self.speeds, self.leg, self.is_done = places, speeds, 1, False

    def track_at(self, place: Place | None) -> Track:
        """Returns the course and speed to steer at a place, and begins the next leg at its waypoint."""
        if place is None:
            return self.leg_track()
        while not self.is_done and self.remaining(place) <= EARLY * self.speeds[self.leg] * KNOT:
            if self.leg + 1 < len(self.places):
                self.leg += 1
            else:
                self.is_done = True
        return self.leg_track() if self.is_done else self.toward_line(place)

    def line(self) -> tuple[Place, Place, float]:
        """Returns the start of the leg, its direction as a vector of length 1, and its length."""
        begin, end = self.places[self.leg - 1], self.places[self.leg]
        length = math.dist(begin, end)
        return begin, ((end[0] - begin[0]) / length, (end[1] - begin[1]) / length), length

    def remaining(self, place: Place) -> float:
        """Returns the metres of the leg that are still ahead."""
        begin, along, length = self.line()
        return length - ((place[0] - begin[0]) * along[0] + (place[1] - begin[1]) * along[1])

    def leg_track(self) -> Track:
        """Returns the leg's own course and speed."""
        _, along, _ = self.line()
        return Track(round(math.degrees(math.atan2(*along)) * 10) % 3600 / 10, self.speeds[self.leg])

    def toward_line(self, place: Place) -> Track:
        """Returns the course to the point ahead on the line."""
        begin, along, length = self.line()
        ahead = min(length - self.remaining(place) + LOOK_AHEAD, length + LOOK_AHEAD)
        aim = begin[0] + along[0] * ahead - place[0], begin[1] + along[1] * ahead - place[1]
        return Track(round(math.degrees(math.atan2(*aim)) * 10) % 3600 / 10, self.speeds[self.leg])


def read_route(path: str, latitude: int, longitude: int, speed: float | None) -> Route:
    """Reads a route: a CSV file with a header `latitude,longitude` in degrees, and optionally `speed` in knots on the
    leg to each waypoint.

    The reference of the plane is in 1/10000 minute. A Fault names the wrong line.
    """
    try:
        with open(path, encoding="utf-8-sig", newline="") as source:
            rows = list(csv.DictReader(source))
    except (OSError, UnicodeDecodeError, csv.Error) as error:
        raise Fault(f"{path}: {reason(error) if isinstance(error, OSError) else 'not a CSV text in UTF-8'}") from None
    places, speeds = list[Place](), list[float]()
    for number, row in enumerate(rows, 2):
        try:
            degrees = float(row["latitude"]), float(row["longitude"])
            knots = float(row["speed"]) if row.get("speed") else speed
            if knots is None or not (abs(degrees[0]) <= 90 and abs(degrees[1]) <= 180 and 0 < knots <= FASTEST):
                raise ValueError
        except (KeyError, TypeError, ValueError):
            raise Fault(
                f"{path}, line {number}: no waypoint; write latitude and longitude in degrees, and a speed in knots "
                "here or in --speed"
            ) from None
        places.append(on_plane(degrees, latitude, longitude))
        speeds.append(round(knots * 10) / 10)
    if len(places) < 2 or any(math.dist(one, two) < 1 for one, two in zip(places, places[1:])):
        raise Fault(f"{path}: a route needs at least two waypoints, each at least one metre from the one before")
    return Route(places, speeds)


def on_plane(degrees: tuple[float, float], latitude: int, longitude: int) -> Place:
    """Converts a latitude and a longitude in degrees to a place in metres on the plane of a reference in 1/10000 minute
    (docs/PLANE.md)."""
    change = (degrees[1] * 600000 - longitude + 108000000) % 216000000 - 108000000
    cosine = math.cos(math.radians(round(abs(latitude) / 60000) / 10))
    return change / 10000 * 1852 * cosine, (degrees[0] * 600000 - latitude) / 10000 * 1852
