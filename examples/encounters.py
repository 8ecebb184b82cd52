"""The worked encounters: who meets whom, and the log that a receiver would have of it.

Every vessel is made up, and no land or depth is considered. She goes straight and at one speed until an order; then she
turns by a degree a second and changes speed by a tenth of a knot a second. Nothing is drawn at random. The scenario
says where a window starts and where on earth its reference lies.
"""
import math
import os
import sys
import tomllib
from collections.abc import Callable, Iterator
from dataclasses import dataclass
from typing import Any

HERE = os.path.dirname(os.path.abspath(__file__))
sys.path[:0] = [os.path.join(HERE, "..", "dev", "bench"), os.path.join(HERE, "..", "python")]
from sentences import armour, position_report, sentence, tagged, voyage  # noqa: E402
from colregs.model.tracks import toward  # noqa: E402

METRES = 1852
NO_SPEED, NO_COURSE, NO_HEADING = 1023, 3600, 511


Order = tuple[int, float, float]        # second, course and speed
Entry = tuple[int, list[str]]           # a second, and the lines of a message that is sent then


@dataclass(frozen=True)
class Vessel:
    """Where she is at the window's start in metres, her course in degrees, her speed in knots, her orders, her static
    data, the messages that she sends, and the seconds between which she reports neither speed nor course."""

    name: str
    mmsi: int
    east: float
    north: float
    course: float
    speed: float
    orders: tuple[Order, ...]
    kind: int
    hull: tuple[int, int, int, int]
    message: int
    period: int
    phase: int
    quiet: tuple[int, int] | None


def vessel(name: str, mmsi: int, east: float, north: float, course: float, speed: float,
           orders: list[Order] | None = None, **more: Any) -> Vessel:
    """Returns a vessel: a cargo ship of class A that reports every ten seconds, but for what is given."""
    plain: dict[str, Any] = {
        "kind": 70, "hull": (90, 30, 10, 10), "message": 1, "period": 10, "phase": mmsi % 10, "quiet": None
    }
    return Vessel(name, mmsi, east, north, course, speed, tuple(orders or ()), **{**plain, **more})


def head_on() -> list[Vessel]:
    return [
        vessel("ALDER", 200000001, -4000, -40, 90, 14, [(515, 125, 14), (700, 90, 14)], hull=(120, 30, 10, 12)),
        vessel("BIRCH", 200000002, 4000, 40, 270, 12, kind=80, hull=(140, 40, 14, 14)),
    ]


def crossing() -> list[Vessel]:
    return [
        vessel("ELM", 200000011, -6100, 0, 90, 14, [(140, 130, 14), (440, 90, 14)]),
        vessel("HOLLY", 200000012, -2500, -3090, 0, 12, kind=60, hull=(100, 20, 10, 10)),
        vessel("LARCH", 200000013, 5860, 1800, 270, 15, hull=(150, 40, 12, 16)),
        vessel("MAPLE", 200000014, 2000, 4890, 180, 12, [(300, 180, 4), (640, 180, 12)], kind=80),
    ]


def overtaking() -> list[Vessel]:
    return [
        vessel("LINDEN", 200000021, 0, 0, 80, 6, kind=52, hull=(30, 10, 5, 5)),
        vessel("ROWAN", 200000022, -1700, -300, 80, 14, [(60, 55, 14), (480, 80, 14)]),
        vessel("YEW", 200000023, -3600, -780, 80, 14, hull=(150, 40, 12, 16)),
    ]


def harbour_of_twenty() -> list[Vessel]:
    still: dict[str, Any] = {"period": 180}
    small: dict[str, Any] = {"message": 18, "period": 30, "hull": (8, 4, 2, 2)}
    return [
        # at anchor in the south-west, and at berths in the east
        vessel("ACACIA", 200000101, -4600, -2600, 215, 0, phase=10, **still),
        vessel("ALMOND", 200000102, -4000, -3100, 210, 0, phase=40, kind=80, **still),
        vessel("APPLE", 200000103, -4900, -3600, 220, 0, phase=70, **still),
        vessel("ASPEN", 200000104, -4200, -4200, 212, 0, phase=100, **still),
        vessel("BAMBOO", 200000105, 5200, 900, 0, 0, phase=20, **still),
        vessel("BANYAN", 200000106, 5200, 1600, 0, 0, phase=50, kind=80, **still),
        vessel("BEECH", 200000107, 5300, 2500, 350, 0, phase=80, **still),
        # head-on in the fairway: one alters to port, the other keeps on
        vessel("CEDAR", 200000108, -6000, 30, 90, 10),
        vessel("CHERRY", 200000109, 4600, -40, 270, 9, [(850, 245, 9), (1260, 270, 9)], kind=80),
        # a crossing: the ferry gives way in time
        vessel("CYPRESS", 200000110, 1500, -6000, 0, 16, [(200, 35, 16), (560, 0, 16)], kind=60),
        vessel("EBONY", 200000111, 3560, -1900, 270, 8, kind=52, hull=(25, 8, 5, 5)),
        # a crossing: the vessel that is to stand on alters before the ferry does
        vessel("FIG", 200000112, -1800, 6060, 180, 15, [(222, 215, 15), (520, 180, 15)], kind=60),
        vessel("GINKGO", 200000113, -4115, 2200, 90, 9, [(190, 115, 9), (620, 70, 9)]),
        # a faster vessel overtakes a tug, well clear
        vessel("HAZEL", 200000114, -5200, 3900, 80, 5, kind=52, hull=(25, 8, 5, 5)),
        vessel("HICKORY", 200000115, -7600, 3400, 80, 11, [(150, 55, 11), (900, 80, 11)]),
        # small craft meet; one reports neither speed nor course for some minutes
        vessel("IVY", 200000116, 3000, 3700, 225, 6, [(70, 255, 6), (700, 225, 6)], kind=36, **small),
        vessel("JUNIPER", 200000117, 700, 1300, 45, 7, quiet=(100, 340), kind=37, **small),
        # a crossing that is not over when the window ends
        vessel("KAPOK", 200000118, 4850, -3900, 300, 6),
        vessel("LAUREL", 200000119, -1700, -5170, 0, 4, kind=30, hull=(15, 8, 3, 3)),
        # under way, and meets nobody
        vessel("LEMON", 200000120, 1500, 5500, 100, 8, kind=50, hull=(15, 8, 3, 3)),
    ]


def giving_way() -> list[Vessel]:
    return [
        vessel("OAK", 200000031, 0, -1297, 0, 14, hull=(110, 40, 12, 12)),
        vessel("PINE", 200000032, 4075, 3000, 270, 12, kind=80, hull=(140, 40, 14, 14)),
        vessel("WILLOW", 200000033, 700, 800, 10, 5, kind=52, hull=(25, 8, 5, 5)),
    ]


Fleet = Callable[[], list[Vessel]]
ENCOUNTERS: dict[str, Fleet] = {
    "head_on": head_on, "crossing": crossing, "overtaking": overtaking, "harbour_of_twenty": harbour_of_twenty
}
PLANS: dict[str, Fleet] = {"giving_way": giving_way}


def turned(course: float, aim: float) -> float:
    """Returns the course after a second of a turn by the shorter way."""
    return (course + toward(0, (aim - course + 180) % 360 - 180, 1)) % 360


def states(ship: Vessel, seconds: int) -> Iterator[tuple[int, float, float, float, float]]:
    """Yields each second with her place east and north, course and speed."""
    east, north, course, speed = ship.east, ship.north, ship.course, ship.speed
    for second in range(seconds + 1):
        yield second, east, north, course, speed
        orders = [order for order in ship.orders if order[0] <= second]
        _, aim, way = orders[-1] if orders else (0, ship.course, ship.speed)
        course, speed = turned(course, aim), toward(speed, way, 0.1)
        angle = math.radians(course)
        east += speed * METRES / 3600 * math.sin(angle)
        north += speed * METRES / 3600 * math.cos(angle)


def reported(ship: Vessel, second: int, course: float, speed: float) -> tuple[int, int, int]:
    """Returns speed, course and heading as a report has them. Small craft have no compass for a heading."""
    if ship.quiet and ship.quiet[0] <= second < ship.quiet[1]:
        return NO_SPEED, NO_COURSE, NO_HEADING
    tenths = round(course * 10) % 3600
    return round(speed * 10), tenths, NO_HEADING if ship.message == 18 else tenths // 10


def reports(ship: Vessel, seconds: int, reference: dict[str, int], start: int) -> Iterator[Entry]:
    """Yields her position reports."""
    for second, east, north, course, speed in states(ship, seconds):
        if second < ship.phase or (second - ship.phase) % ship.period != 0:
            continue
        latitude = round(reference["lat"] + north / METRES * 10000)
        longitude = round(reference["lon"] + east / METRES * 10000 / math.cos(math.radians(reference["lat"] / 600000)))
        payload, fill = armour(position_report(
            ship.message, ship.mmsi, latitude, longitude, *reported(ship, second, course, speed), second % 60))
        yield second, [tagged(start + second, sentence(1, 1, "", "AB"[second % 2], payload, fill))]


def statics(fleet: list[Vessel], start: int) -> Iterator[Entry]:
    """Yields the static data of a fleet."""
    for k, ship in enumerate(fleet):
        payload, fill = armour(voyage(ship.mmsi, ship.name, ship.kind, *ship.hull))
        first = tagged(start + 3 * k, sentence(2, 1, k % 10, "A", payload[:56], 0))
        yield 3 * k, [first, sentence(2, 2, k % 10, "A", payload[56:], fill)]


def log(name: str) -> str:
    """Returns the log of an encounter."""
    with open(os.path.join(HERE, name + ".toml"), "rb") as source:
        scenario = tomllib.load(source)
    window, fleet = scenario["window"], (ENCOUNTERS | PLANS)[name]()
    start, seconds = window["start"], window["ticks"] * window["tick"]
    if name in ENCOUNTERS:      # the last step needs a report after it; a plan has none of the future
        seconds += max(ship.period for ship in fleet)
    entries = [entry for ship in fleet for entry in reports(ship, seconds, scenario["reference"], start)]
    entries += statics(fleet, start)
    return "".join(line + "\n" for _, lines in sorted(entries, key=lambda entry: entry[0]) for line in lines)
