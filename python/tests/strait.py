"""A made-up hour in a strait: through traffic, moored pairs, a pilot transfer, a tug with her tow, fishing vessels, and
a vessel that vanishes.

All is on a plane near the equator, where a minute of longitude and of latitude is 1852 m. Each vessel moves straight
from one point of her path to the next.
"""
import math
from collections.abc import Iterator
from dataclasses import dataclass

from given import InFolder, PROGRAM
from colregs.io.sentences import block, class_a, sentence, sentences, voyage

START, TICK, STEPS = 1700000000, 10, 360
KNOT = 1852 / 3600
UNIT = 0.1852                   # m in 1/10000 minute
SCENARIO = """version = 1
window = { start = 1700000000, tick = 10, ticks = 360 }
reference = { lat = 0, lon = 0 }
log = { gap = 200, slack = 30, max_speed = 500 }
detect = { watch = 9000, risk = 500, clear = 1000, horizon = 900, doubt = 0, ahead = 60, reciprocal = 60 }
act = { steady_turn = 50, apparent_turn = 200, steady_speed = 10, apparent_speed = 50 }
rules = { safe = 500, overtake = 300, close = 800, t8 = 60, ta = 120, tl = 30, tw = 120, te = 600 }
"""
Corner = tuple[float, float, float]         # seconds after the start, and metres east and north
CEDAR, CHERRY, PILOT, SHIP, TUG, BARGE, NET, TRAWL, NORTH, NORTHERN = range(200000401, 200000411)
MOORED = tuple(range(200000501, 200000513))             # twelve vessels in six pairs
TRAFFIC = tuple(range(200000601, 200000617))            # sixteen vessels, two in each lane
# m and s: CEDAR and CHERRY would pass; CHERRY's last report is four minutes before
LEAST, NEAREST, SILENT = 120, 1800, 1560


@dataclass(frozen=True)
class Vessel:
    """A vessel with her path, her type and status, the interval of her reports, and their end."""

    mmsi: int
    name: str
    kind: int
    way: tuple[Corner, ...]
    status: int = 0
    every: int = 10
    until: int = STEPS * TICK

    def reports(self) -> Iterator[tuple[int, bytes]]:
        """Yields her reports with their times."""
        for first, last in zip(self.way, self.way[1:]):
            seconds, east, north = (b - a for a, b in zip(first, last))
            speed, course = math.hypot(east, north) / seconds / KNOT, math.degrees(math.atan2(east, north)) % 360
            for second in range(math.ceil(first[0] / self.every) * self.every, math.ceil(last[0]), self.every):
                part = (second - first[0]) / seconds
                x, y = first[1] + east * part, first[2] + north * part
                report = round(y / UNIT), round(x / UNIT), round(
                    10 * speed), round(10 * course) % 3600, 511, second % 60
                if second <= self.until:
                    yield second, block(START + second) + sentence(class_a(self.mmsi, report, self.status))


def straight(speed: float, course: float, second: float, x: float, y: float) -> tuple[Corner, ...]:
    """Returns the path of a vessel that keeps her speed in knots and course in degrees, and is at a place at a
    moment."""
    east, north = (speed * KNOT * part for part in (math.sin(math.radians(course)), math.cos(math.radians(course))))
    return tuple((at, x + east * (at - second), y + north * (at - second)) for at in (0, STEPS * TICK))


def vessels() -> Iterator[Vessel]:
    """Yields all vessels of the hour."""
    yield Vessel(CEDAR, "CEDAR", 70, straight(12, 90, NEAREST, 0, 0))
    yield Vessel(CHERRY, "CHERRY", 80, straight(14, 270, NEAREST, 0, LEAST), until=SILENT)
    knots = 8 * KNOT
    yield Vessel(SHIP, "SHIP", 70, straight(8, 90, 0, -8000, 20000))
    yield Vessel(PILOT, "PILOT ONE", 50, ((0, -2000, 17000), (1200, -8000 + 1200 * knots, 19975),
                                          (1500, -8000 + 1500 * knots, 19975), (3600, -2000, 17000)))
    yield Vessel(TUG, "TUG", 52, straight(5, 90, 0, -6000, 40000))
    yield Vessel(BARGE, "BARGE", 70, straight(5, 90, 0, -6250, 40000))
    yield Vessel(NET, "HERRING", 30, straight(4, 0, 1800, 0, 60000), status=7)
    yield Vessel(TRAWL, "TRAWL", 30, straight(3, 90, 1800, 200, 60000), status=7)
    # courses about north: 2 degrees to either side
    for mmsi, name, east, speed in ((NORTH, "NORTH", -30000, 12), (NORTHERN, "NORTHERN", -29600, 13)):
        way = [(60 * k, east + 60 * (k % 2), 60 * k * speed * KNOT - 30000 + 1000 * (mmsi == NORTH)) for k in range(61)]
        yield Vessel(mmsi, name, 70, tuple(way))
    for k, mmsi in enumerate(MOORED):
        east = 300 * (k // 2) + 25 * (k % 2)
        yield Vessel(mmsi, f"MOORED {k}", 70, ((0, east, -30000), (3600, east, -30000)), 5, 180)
    for k, mmsi in enumerate(TRAFFIC):
        yield Vessel(mmsi, f"THROUGH {k}", 70,
                     straight(10 + k % 2, 90, 1800, 0, 70000 + 12000 * (k // 2) + 150 * (k % 2)))


def log() -> str:
    """Returns the reports of all vessels by their times, each after her name."""
    lines = []
    for vessel in vessels():
        first, second = sentences(voyage(vessel.mmsi, vessel.name, vessel.kind, (60, 20, 8, 8)), vessel.mmsi)
        lines.append((-1, block(START) + first + b"\n" + second))
        lines += vessel.reports()
    return b"".join(line + b"\n" for _, line in sorted(lines, key=lambda entry: entry[0])).decode()


class InStrait(InFolder):
    """A test with the log and the scenario of the strait in its folder."""

    def setUp(self) -> None:
        super().setUp()
        self.write("strait.toml", SCENARIO)
        self.write("strait.log", log())

    def make(self, out: str, *words: str, logs: str = "strait.log") -> str:
        """Makes a case; returns its summary."""
        status, said, error = self.tool("colregs-case", logs, "--scenario", "strait.toml", "--program", PROGRAM, "-o",
                                        out, *words)
        self.assertEqual(status, 0, error)
        return said
