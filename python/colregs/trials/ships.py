"""Ships in simulated time: their motion and their reports."""
from __future__ import annotations

import math
import random
from dataclasses import dataclass, field

from colregs.io.sentences import NO_HEADING, block, class_a, class_b, hull_part, name_part, sentence
from colregs.pilot.motion import Place, Rates, turned, velocity
from colregs.pilot.states import Track

STATIC_EVERY = 360         # s between two reports of static data (ITU-R M.1371)
CARGO = 70                 # type of ship


@dataclass(frozen=True)
class Errors:
    """The errors of a ship's reports: the standard deviations of place (m), course and heading (degrees) and speed
    (knots), the interval, the losses and the delay."""

    small: bool                # class B: reports by message 18, without a heading
    interval: int              # s between two reports
    place: float = 0.0
    course: float = 0.0
    heading: float = 0.0
    speed: float = 0.0
    missed: float = 0.0        # the share of the reports that no receiver hears
    delay: int = 0             # s: the greatest delay of a report


EXACT = Errors(False, 10)
CLASS_A = Errors(False, 10, place=5.0, course=1.0, heading=0.5, speed=0.1, missed=0.1, delay=3)
CLASS_B = Errors(True, 30, place=8.0, course=3.0, speed=0.2, missed=0.2, delay=5)
DRIFT = 0.95               # the share of a place error that remains after 10 s: the error wanders instead of jumping


@dataclass
class Ship:
    """A ship: her place in metres, her course and speed, her order, and how fast she turns and changes speed."""

    mmsi: int
    name: str
    length: int
    place: Place
    state: Track
    rates: Rates
    order: Track = field(init=False)
    drift: Place = field(init=False)       # metres per second to the east and to the north

    def __post_init__(self) -> None:
        """Orders her present course and speed."""
        self.order, self.drift = self.state, velocity(self.state)

    def step(self) -> None:
        """Moves her by one second, turning toward her order."""
        if self.state is not self.order and self.state != self.order:
            self.state = turned(self.state, self.order, self.rates, 1)
            self.drift = velocity(self.state)
        self.place = self.place[0] + self.drift[0], self.place[1] + self.drift[1]

    def hull(self) -> tuple[int, int, int, int]:
        """Returns the metres from her antenna to bow, stern, port and starboard."""
        stern = self.length // 4
        return self.length - stern, stern, max(1, self.length // 14), max(1, self.length // 14)


class Plane:
    """The scenario's plane: metres to latitude and longitude in 1/10000 minute (docs/PLANE.md)."""

    def __init__(self, latitude: int, longitude: int) -> None:
        """`latitude` and `longitude` are the reference in 1/10000 minute."""
        self.latitude, self.longitude = latitude, longitude
        self.east = math.cos(math.radians(round(abs(latitude) / 60000) / 10)) * 1852

    def position(self, place: Place) -> tuple[int, int]:
        """Returns latitude and longitude of a place, in 1/10000 minute."""
        return self.latitude + round(place[1] / 1852 * 10000), self.longitude + round(place[0] / self.east * 10000)


@dataclass(frozen=True, order=True)
class Sent:
    """A line with its arrival time, in seconds since the Unix epoch, and the course and speed in it if it is a
    report."""

    at: int
    line: bytes
    reported: Track | None = field(default=None, compare=False)


class Transmitter:
    """The sentences that one ship sends, and those that a receiver hears."""

    def __init__(self, ship: Ship, plane: Plane, errors: Errors, draw: random.Random) -> None:
        """`draw` is a source of random numbers for errors alone."""
        self.ship, self.plane, self.errors, self.draw = ship, plane, errors, draw
        self.next, self.next_static = draw.randrange(errors.interval), 0
        self.wander = [draw.gauss(0, errors.place), draw.gauss(0, errors.place)] if errors.place else [0.0, 0.0]

    def is_due(self, second: int) -> bool:
        """Returns whether she sends a line in a second."""
        return second >= self.next or second >= self.next_static

    def lines(self, second: int, start: int) -> list[Sent]:
        """Returns the lines of a second that a receiver hears."""
        found = list[Sent]()
        if second >= self.next_static:
            self.next_static = second + STATIC_EVERY
            for fields in (
                name_part(self.ship.mmsi, self.ship.name),
                hull_part(self.ship.mmsi, CARGO, self.ship.hull()),
            ):
                found.append(Sent(start + second, block(start + second) + sentence(fields)))
        if second >= self.next:
            self.next += self.errors.interval
            heard = not self.errors.missed or self.draw.random() >= self.errors.missed
            (report,
             reported), late = self.report(second), self.draw.randint(0, self.errors.delay) if self.errors.delay else 0
            if heard:
                found.append(Sent(start + second + late, block(start + second + late) + report, reported))
        return found

    def report(self, second: int) -> tuple[bytes, Track]:
        """Returns a position report of this second, and the course and speed in it."""
        errors, draw = self.errors, self.draw
        if errors.place:
            step = errors.place * math.sqrt(1 - DRIFT ** 2)
            self.wander = [DRIFT * value + draw.gauss(0, step) for value in self.wander]
        place = self.ship.place[0] + self.wander[0], self.ship.place[1] + self.wander[1]
        course = self.ship.state.course + (draw.gauss(0, errors.course) if errors.course else 0.0)
        heading = self.ship.state.course + (draw.gauss(0, errors.heading) if errors.heading else 0.0)
        speed = max(0.0, self.ship.state.speed + (draw.gauss(0, errors.speed) if errors.speed else 0.0))
        reported = Track(round(course * 10) % 3600 / 10, round(speed * 10) / 10)
        latitude, longitude = self.plane.position(place)
        shown = NO_HEADING if errors.small else round(heading) % 360
        fields = latitude, longitude, round(speed * 10), round(course * 10) % 3600, shown, second % 60
        return sentence(
            class_b(self.ship.mmsi, fields) if errors.small else class_a(self.ship.mmsi, fields, 0)), reported
