#!/usr/bin/env python3
"""Writes a made day in a strait, for colregs-case: strait_day.py FOLDER [--hours 24] [--ahead SECONDS]

292 vessels: moored and anchored ones, through traffic in two lanes, ferries, pilots, tugs with tows, fishers, leisure
craft, and pairs with a planted fault. Two receivers hear them, each but a part of the messages: FOLDER/r1.log and
FOLDER/r2.log have tag blocks with the receivers' names. With --ahead the clock of the second is ahead by so many
seconds. FOLDER/strait.toml is the scenario, and FOLDER/planted.csv lists the planted pairs: their MMSIs, what they do,
and when and how near they would be nearest if both kept on.
"""
import argparse
import itertools
import math
import os
import random
import sys
from collections.abc import Iterator
from dataclasses import dataclass

HERE = os.path.dirname(os.path.abspath(__file__))
sys.path.insert(0, os.path.join(HERE, "..", "..", "python"))
from colregs.io.sentences import (  # noqa: E402
    Fields, block, class_a, class_b, hull_part, name_part, sentence, sentences, voyage,
)

START = 1700006400              # 15 November 2023, 00:00:00 UTC
DAY, STATIC_EVERY = 86400, 1800
KNOT, UNIT = 1852 / 3600, 0.1852
HEARD = {b"R1": 0.91, b"R2": 0.79}
SCENARIO = """version = 1
window = {{ start = {start}, tick = 10, ticks = {ticks} }}
reference = {{ lat = 0, lon = 0 }}
log = {{ gap = 400, slack = 30, max_speed = 500 }}
detect = {{ watch = 9000, risk = 500, clear = 1000, horizon = 900, doubt = 0, ahead = 60, reciprocal = 60 }}
act = {{ steady_turn = 50, apparent_turn = 200, steady_speed = 10, apparent_speed = 50 }}
rules = {{ safe = 500, overtake = 300, close = 800, t8 = 60, ta = 120, tl = 30, tw = 120, te = 600 }}
"""
CARGO, TANKER, PASSENGER, PILOT, TUG, FISHING, LEISURE = 70, 80, 60, 50, 52, 30, 37
HULLS = {
    CARGO: (120, 20, 11, 11), TANKER: (150, 30, 15, 15), PASSENGER: (40, 40, 9, 9), PILOT: (6, 8, 2, 3),
    TUG: (10, 16, 5, 5), FISHING: (8, 14, 3, 4), LEISURE: (5, 6, 2, 2)
}
Corner = tuple[float, float, float]         # seconds after the start, and metres east and north


@dataclass
class Vessel:
    """A vessel with the corners of her way, her type, how often she reports, and the status by time."""

    mmsi: int
    name: str
    kind: int
    way: list[Corner]
    every: int = 10
    status: int = 0
    until: float = math.inf
    small: bool = False

    def messages(self, draw: random.Random) -> Iterator[tuple[float, list[bytes]]]:
        """Yields her messages with their times, as sentences."""
        phase = draw.randrange(180)
        for first, last in zip(self.way, self.way[1:]):
            seconds, east, north = (b - a for a, b in zip(first, last))
            if seconds <= 0:
                continue
            speed, course = math.hypot(east, north) / seconds / KNOT, math.degrees(math.atan2(east, north)) % 360
            for second in range(math.ceil(first[0] + phase % self.every), math.ceil(last[0]), self.every):
                if second > self.until or speed < 0.3 and (second + phase) % 180 >= self.every:
                    continue
                part = (second - first[0]) / seconds
                yield second, [
                    self.position(draw, first[1] + east * part, first[2] + north * part, speed, course, second)
                ]
        begin = int(self.way[0][0]) + phase * 10 % STATIC_EVERY
        for second in range(begin, int(min(self.until, self.way[-1][0])), STATIC_EVERY):
            yield second, self.static()

    def position(self, draw: random.Random, x: float, y: float, speed: float, course: float, second: int) -> bytes:
        """Returns a position report with the noise of a receiver."""
        moves = speed >= 0.3
        knots = max(0, 10 * speed + draw.choice((-1, 0, 0, 0, 1))) if moves else draw.choice((0, 0, 0, 1))
        angle = (10 * course + draw.choice((-8, -4, 0, 4, 8))) % 3600 if moves else draw.randrange(3600)
        heading = round(course) % 360 if moves else self.mmsi % 360
        report = (round((y + draw.gauss(0, 1)) / UNIT), round((x + draw.gauss(0, 1)) / UNIT), round(knots),
                  round(angle) % 3600, 511 if self.small else heading, second % 60)
        status = (5 if self.status == 0 else self.status) if not moves else self.status
        return sentence(class_b(self.mmsi, report) if self.small else class_a(self.mmsi, report, status))

    def static(self) -> list[bytes]:
        """Returns her name, type and size."""
        fields: Fields = voyage(self.mmsi, self.name, self.kind, HULLS[self.kind])
        if self.small:
            return [
                sentence(name_part(self.mmsi, self.name)),
                sentence(hull_part(self.mmsi, self.kind, HULLS[self.kind]))
            ]
        return sentences(fields, self.mmsi)


@dataclass
class Planted:
    """Two vessels with a fault, or without one: what they do, and when and how near they would be nearest if both kept
    on."""

    one: Vessel
    other: Vessel
    what: str
    at: float
    least: float


def straight(speed: float, course: float, second: float, x: float, y: float, before: float = 2400,
             after: float = 2400) -> list[Corner]:
    """Returns the way of a vessel that keeps speed and course, and is at a place at a moment."""
    east, north = (speed * KNOT * part for part in (math.sin(math.radians(course)), math.cos(math.radians(course))))
    return [(second + more, x + east * more, y + north * more) for more in (-before, after)]


def turned(way: list[Corner], second: float, turn: float, back: float) -> list[Corner]:
    """Returns a straight way with a turn to starboard in degrees at a moment, and back to the old course at another
    one."""
    (begin, x, y), (end, u, v) = way
    east, north = (u - x) / (end - begin), (v - y) / (end - begin)
    angle = math.radians(turn)
    along = (east * math.cos(angle) + north * math.sin(angle), north * math.cos(angle) - east * math.sin(angle))
    first = second, x + east * (second - begin), y + north * (second - begin)
    then = back, first[1] + along[0] * (back - second), first[2] + along[1] * (back - second)
    return [way[0], first, then, (end, then[1] + east * (end - back), then[2] + north * (end - back))]


def clock(hours: int, minutes: int = 0) -> int:
    return hours * 3600 + minutes * 60


def planted() -> list[Planted]:
    """Returns the planted pairs, each alone in the western approach."""
    count, at = itertools.count(211000001), iter(range(-120000, -40000, 6000))

    def pair(names: str, kinds: tuple[int, int], ways: tuple[list[Corner], list[Corner]], what: str, second: float,
             least: float, until: float = math.inf) -> Planted:
        one, other = (Vessel(next(count), name, kind, way) for name, kind, way in zip(names.split(), kinds, ways))
        other.until = until
        return Planted(one, other, what, second, least)

    def west() -> float:
        return float(next(at))

    found = []
    x, t = west(), clock(13, 52)
    found.append(
        pair("CEDAR CHERRY", (CARGO, TANKER), (straight(12, 90, t, x, 0), straight(14, 270, t, x, 362)),
             "head on, neither alters", t, 362))
    x, t = west(), clock(13, 54)
    found.append(
        pair("ELM FIR", (CARGO, TANKER), (straight(12, 90, t, x, 14000), straight(14, 270, t, x, 14120)),
             "head on, one vanishes", t, 120, t - 254))
    x, t = west(), clock(5, 30)
    found.append(
        pair("HAZEL HOLLY", (CARGO, CARGO), (straight(12, 0, t, x, 0), straight(12, 270, t, x + 150, 150)),
             "crossing, neither acts, and the one that gives way crosses ahead", t, 0))
    x, t = west(), clock(7, 15)
    found.append(
        pair("IVY JUNIPER", (CARGO, TANKER), (straight(15, 90, t, x, 0), straight(9, 90, t, x, 150)),
             "overtakes at 150 m", t, 150))
    x, t = west(), clock(9, 40)
    found.append(
        pair("LARCH LAUREL", (CARGO, CARGO),
             (turned(straight(12, 90, t, x, 0), t - 420, -25, t - 60), straight(12, 270, t, x, 100)),
             "head on, one alters to port", t, 100))
    x, t = west(), clock(11, 5)
    found.append(
        pair("MAPLE MYRTLE", (CARGO, CARGO),
             (straight(12, 0, t, x, 0), turned(straight(12, 270, t, x, 0), t - 500, -30, t - 100)),
             "the one that stands on alters to port", t, 0))
    x, t = west(), clock(15, 20)
    found.append(
        pair("OAK OLIVE", (CARGO, CARGO),
             (turned(straight(12, 0, t, x, 0), t - 780, 40, t - 200), straight(12, 270, t, x, 0)),
             "crossing, gives way well", t, 0))
    x, t = west(), clock(17, 30)
    found.append(
        pair("PINE POPLAR", (CARGO, TANKER), (turned(straight(
            12, 90, t, x, 0), t - 850, 30, t - 300), turned(straight(13, 270, t, x, 0), t - 850, 30, t - 300)),
             "head on, both alter to starboard", t, 0))
    x, t = west(), clock(19, 45)
    found.append(
        pair("ROWAN SPRUCE", (CARGO, CARGO), (straight(15, 90, t, x, 0), straight(9, 90, t, x, 1300)),
             "overtakes at 1300 m", t, 1300))
    x, t = west(), clock(21, 10)
    found.append(
        pair("THORN WALNUT", (CARGO, TANKER), (straight(12, 0, t, x, 0), straight(12, 270, t, x, 0)),
             "crossing, neither acts", t, 0))
    x, t = west(), clock(3, 20)
    found.append(
        pair("WILLOW YEW", (CARGO, CARGO),
             (straight(11, 0, t, x, 0), turned(straight(12, 270, t, x, 100), t - 240, 45, t)),
             "crossing, only the one that stands on acts", t, 74))
    x, t = west(), clock(1, 50)
    found.append(
        pair("ASH BEECH", (CARGO, TANKER), (straight(14, 90, t, x, 0), straight(13, 270, t, x, -250)),
             "head on, pass starboard to starboard", t, 250))
    return found


def still(mmsi: int, name: str, kind: int, x: float, y: float, status: int = 5) -> Vessel:
    """Returns a vessel that lies at one place all day."""
    return Vessel(mmsi, name, kind, [(0, x, y), (DAY, x, y)], 180, status)


def harbours() -> Iterator[Vessel]:
    """Yields 74 moored vessels in two harbours and at the ferries' berths, and 14 at anchor."""
    for k in range(40):
        yield still(212000001 + k, f"QUAY S{k}", (CARGO, TANKER, FISHING, PASSENGER)[k % 4], 120 * (k // 4) - 600,
                    -9200 - 45 * (k % 4))
    for k in range(28):
        yield still(212000101 + k, f"QUAY N{k}", (CARGO, LEISURE, TUG)[k % 3], 5000 + 100 * (k // 3), 9200 + 45 *
                    (k % 3))
    berths = ((6000, -8205), (6400, -8205), (6800, -8205), (10000, 8205), (10400, 8205), (10800, 8205))
    for k, (x, y) in enumerate(berths):
        yield still(212000301 + k, f"BERTH {k}", PASSENGER, x, y)
    for k in range(14):
        yield still(212000201 + k, f"ANCHOR {k}", (CARGO, TANKER)[k % 2], -12000 - 900 * (k % 7), -5200 - 1000 *
                    (k // 7), 1)


def through(draw: random.Random) -> Iterator[Vessel]:
    """Yields 100 vessels in two lanes, 36 km to either side."""
    for k in range(100):
        east, kind = k % 2 == 0, (CARGO, CARGO, TANKER, PASSENGER)[k // 2 % 4]
        middle, speed = 600 + 830 * k + draw.randrange(600), draw.uniform(9, 17)
        x, y = 0.0, draw.uniform(-2600, -900) if east else draw.uniform(900, 2600)
        time = 36000 / (speed * KNOT)
        way = straight(speed, 90 if east else 270, middle, x, y, time, time)
        yield Vessel(213000001 + k, f"THROUGH {k}", kind, [corner for corner in cut(way)])


def cut(way: list[Corner]) -> list[Corner]:
    """Returns the part of a straight way within the day."""
    (begin, x, y), (end, u, v) = way

    def at(second: float) -> Corner:
        part = (second - begin) / (end - begin)
        return second, x + (u - x) * part, y + (v - y) * part
    return [at(max(0, begin)), at(min(DAY, end))]


def ferries() -> Iterator[Vessel]:
    """Yields six ferries that cross all day, two to a berth, each beside a moored vessel."""
    for k in range(6):
        south, north = (6000 + 400 * (k // 2), -8160 - 20 * (k % 2)), (10000 + 400 * (k // 2), 8160 + 20 * (k % 2))
        way, second, here, there = [(0.0, *south)], k % 2 * 2050 + 240.0 * k, south, north
        way.append((second, *south))
        while second < DAY - 4000:
            second += math.dist(here, there) / (16 * KNOT)
            way.append((second, *there))
            second += 2400
            way.append((second, *there))
            here, there = there, here
        yield Vessel(214000001 + k, f"FERRY {k}", PASSENGER, [*way, (DAY, *here)])


def pilots(ships: list[Vessel]) -> Iterator[Vessel]:
    """Yields four pilot boats, which go alongside ships of the lanes."""
    for k in range(4):
        base = (-5600.0 + 30 * k, -7900.0)
        way: list[Corner] = [(0, *base)]
        for ship in ships[2 + 2 * k::12]:
            (begin, x, y), (end, u, v) = ship.way
            speed = (u - x) / (end - begin)
            meet = begin + (-6000 + 500 * k - x) / speed
            if meet < way[-1][0] + 3000 or meet > end - 3000:
                continue
            place = (x + speed * (meet - begin), y - 20)
            go = meet - math.dist(base, place) / (18 * KNOT)
            after = (place[0] + speed * 300, place[1])
            way += [(go, *base), (meet, *place), (meet + 300, *after),
                    (meet + 300 + math.dist(after, base) / (18 * KNOT), *base)]
        yield Vessel(215000001 + k, f"PILOT {k}", PILOT, [*way, (DAY, *base)])


def tows() -> Iterator[Vessel]:
    """Yields five tugs, each with her tow."""
    for k in range(5):
        middle = clock(2 + 4 * k)
        for behind, name, kind in ((0, f"TUG {k}", TUG), (250, f"TOW {k}", CARGO)):
            way = straight(5, 90, middle, -behind, -3200 - 100 * k, 7200, 7200)
            yield Vessel(216000001 + 2 * k + (behind > 0), name, kind, way)


def fishers(draw: random.Random) -> Iterator[Vessel]:
    """Yields forty fishers who trawl to and fro on two grounds; some by type alone, some by status too."""
    for k in range(40):
        x, y = (16000, 5200) if k % 2 else (-18000, 5200)
        place = (x + draw.uniform(-3000, 3000), y + draw.uniform(-1800, 1800))
        second = float(draw.randrange(clock(4)) + clock(2) * (k % 5))
        way: list[Corner] = [(second, *place)]
        for _ in range(14):
            angle, knots = draw.uniform(0, 2 * math.pi), draw.uniform(2.5, 4)
            turn = min(DAY, second + draw.randrange(1500, 3000))
            there = (place[0] + knots * KNOT * (turn - second) * math.sin(angle), place[1] + knots * KNOT *
                     (turn - second) * math.cos(angle))
            if math.dist(there, (x, y)) > 4500:
                there = (x + draw.uniform(-2000, 2000), y + draw.uniform(-1500, 1500))
                turn = min(DAY, second + math.dist(place, there) / (3 * KNOT) + 1)
            if turn - second > 1:
                way.append((turn, *there))
            second, place = turn, there
        yield Vessel(217000001 + k, f"FISHER {k}", FISHING, way, 30, 7 if k % 3 else 0)


def leisure(draw: random.Random) -> Iterator[Vessel]:
    """Yields twenty leisure craft of class B, who sail about, also over the fishing grounds."""
    for k in range(20):
        second, place = float(clock(7) + draw.randrange(clock(5))), (draw.uniform(4000, 6000), 7000.0)
        way: list[Corner] = [(second, *place)]
        for _ in range(8):
            there = (draw.uniform(2000, 18000), draw.uniform(3400, 7400))
            second += math.dist(place, there) / (draw.uniform(4, 6) * KNOT)
            place = there
            way.append((second, *place))
        yield Vessel(218000001 + k, f"YACHT {k}", LEISURE, [corner for corner in way if corner[0] < DAY], 30,
                     small=True)


def fleet() -> tuple[list[Vessel], list[Planted]]:
    """Returns all vessels of the day, and the planted pairs."""
    draw, pairs = random.Random(292), planted()
    ships = list(through(draw))
    vessels = [*harbours(), *ships, *ferries(), *pilots(ships), *tows(), *fishers(draw), *leisure(draw)]
    return vessels + [vessel for pair in pairs for vessel in (pair.one, pair.other)], pairs


def heard(vessels: list[Vessel], until: float, ahead: int) -> dict[bytes, list[tuple[float, bytes]]]:
    """Returns the lines of each receiver with their times."""
    draw, lines = random.Random(458), {name: list[tuple[float, bytes]]() for name in HEARD}
    for vessel in vessels:
        for second, told in vessel.messages(draw):
            if not 0 <= second < until:
                continue
            for name, share in HEARD.items():
                stamp = START + int(second) + (ahead if name == b"R2" else 0)
                if draw.random() < share:
                    lines[name].append((second, b"".join(block(stamp, b"s:" + name) + each + b"\n" for each in told)))
    return lines


def write(folder: str, hours: float = 24, ahead: int = 0) -> int:
    """Writes the day's files; returns how many lines there are."""
    os.makedirs(folder, exist_ok=True)
    vessels, pairs = fleet()
    count = 0
    for name, lines in heard(vessels, hours * 3600, ahead).items():
        with open(os.path.join(folder, name.decode().lower() + ".log"), "wb") as out:
            for _, text in sorted(lines, key=lambda entry: entry[0]):
                out.write(text)
                count += text.count(b"\n")
    with open(os.path.join(folder, "strait.toml"), "w", encoding="utf-8") as scenario:
        scenario.write(SCENARIO.format(start=START, ticks=int(hours * 360)))
    with open(os.path.join(folder, "planted.csv"), "w", encoding="utf-8") as table:
        table.write("one,other,what,at,least\n")
        table.writelines(f"{pair.one.mmsi},{pair.other.mmsi},\"{pair.what}\",{START + int(pair.at)},{pair.least:.0f}\n"
                         for pair in pairs)
    return count


def main() -> None:
    words = argparse.ArgumentParser(description=__doc__, formatter_class=argparse.RawDescriptionHelpFormatter)
    words.add_argument("folder")
    words.add_argument("--hours", type=float, default=24)
    words.add_argument("--ahead", type=int, default=0, metavar="SECONDS")
    given = words.parse_args()
    print(f"{write(given.folder, given.hours, given.ahead):,} lines of {len(fleet()[0])} vessels")


if __name__ == "__main__":
    main()
