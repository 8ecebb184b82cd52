#!/usr/bin/env python3
"""Measures the audit of a made archive in shares: months.py PROGRAM [--folder DIR] [--vessels N] [--days N] [--jobs N]

In the archive every vessel reports each minute. Of five vessels four go to and fro between two places, for half an hour
to an hour a way. The fifth is of a harbour: it lies at a berth beside others for one to four days, sails for some
hours, and comes back to another berth. The area grows with the vessels, so that they stay as dense. Files of a day are
packed by gzip; with --folder they stay, and so do the results, so that a measure that was stopped continues.

Rows have the seconds, the CPU seconds of the command with its children, and the peak memory of its largest process. The
last lines say how many rows are marked.
"""
import argparse
import base64
import concurrent.futures
import gzip
import math
import os
import random
import re
import subprocess
import sys
import tempfile
import time
from bisect import bisect_right

from sentences import START
from fleets import SCENARIO

HERE = os.path.dirname(os.path.abspath(__file__))
sys.path.insert(0, os.path.join(HERE, "..", "..", "python"))
from colregs.io.sentences import FROM_64, block  # noqa: E402

DAY, KNOT, METRE = 86400, 1852 / 3600, 1 / 0.1852       # s, m/s, and units of 1/10000 minute at the equator
BASIN, BERTH = 12, 50                                   # vessels of a basin, and metres from berth to berth
MASK_28, MASK_27 = (1 << 28) - 1, (1 << 27) - 1
LONGEST = 40                                            # days for which vessels have a plan
State = tuple[float, float, int, int]                   # metres east and north, 1/10 knot, 1/10 degree
Place = tuple[float, float]
Leg = tuple[int, int, Place, Place]                     # its begin and length in seconds, and its ends
MANY = os.path.join(HERE, "..", "..", "tools", "colregs-many")


class Rover:
    """A vessel that goes to and fro."""

    def __init__(self, draw: random.Random, mmsi: int, side: float) -> None:
        self.mmsi, self.phase, self.status = mmsi, draw.randrange(60), 0
        self.x, self.y, self.angle = draw.uniform(0, side), draw.uniform(0, side), draw.uniform(0, 2 * math.pi)
        self.way, self.speed = draw.randrange(1800, 3600, 60), draw.randrange(20, 61)

    def at(self, second: int) -> State:
        turns, gone = divmod(second + 60 * self.phase, self.way)
        gone = self.way - gone if turns % 2 else gone
        metres, course = self.speed / 10 * KNOT * gone, round(self.angle / math.pi * 1800 + 1800 * (turns % 2)) % 3600
        return self.x + metres * math.sin(self.angle), self.y + metres * math.cos(self.angle), self.speed, course


class Guest:
    """A vessel of a harbour: its legs are stays at berths, and ways out and back."""

    def __init__(self, draw: random.Random, mmsi: int, place: tuple[float, float], number: int) -> None:
        self.mmsi, self.phase, self.status = mmsi, draw.randrange(60), draw.choice((5, 15))
        self.begins, self.legs, second, berth = list[int](), list[Leg](), -draw.randrange(DAY), number
        while second < LONGEST * DAY:
            stay, half, angle, speed = draw.randrange(DAY, 4 * DAY), draw.randrange(3600, 3 * 3600), draw.uniform(
                0, 2 * math.pi), draw.randrange(40, 100)
            here, berth = berth, draw.randrange(BASIN)
            at, back = (place[0] + here * BERTH, place[1]), (place[0] + berth * BERTH, place[1])
            far = at[0] + speed / 10 * KNOT * half * math.sin(angle), at[1] + speed / 10 * KNOT * half * math.cos(angle)
            for length, begin, end in ((stay, at, at), (half, at, far), (half, far, back)):
                self.begins.append(second)
                self.legs.append((second, length, begin, end))
                second += length

    def at(self, second: int) -> State:
        begin, length, (x, y), (east, north) = self.legs[bisect_right(self.begins, second) - 1]
        part, across, along = (second - begin) / length, east - x, north - y
        return (x + part * across, y + part * along, round(math.hypot(across, along) / length / KNOT * 10),
                round(math.degrees(math.atan2(across, along)) * 10) % 3600)


def fleet_of(vessels: int) -> "list[Rover | Guest]":
    draw, side = random.Random(vessels), 2000 * math.sqrt(vessels)
    places: dict[int, tuple[float, float]] = {}
    fleet: list[Rover | Guest] = []
    for k in range(vessels):
        mmsi = 200000001 + 997 * k
        if k % 5:
            fleet.append(Rover(draw, mmsi, side))
        else:
            place = places.setdefault(k // 5 // BASIN, (draw.uniform(0, side), draw.uniform(0, side)))
            fleet.append(Guest(draw, mmsi, place, k // 5 % BASIN))
    return fleet


def write_day(name: str, vessels: int, day: int) -> None:
    """Writes the file of a day, unless it is there."""
    if os.path.exists(name):
        return
    fleet = fleet_of(vessels)
    by_phase = [[one for one in fleet if one.phase == second] for second in range(60)]
    with gzip.open(name + ".part", "wb", compresslevel=4) as out:
        for second in range(day * DAY, (day + 1) * DAY):
            stamp = block(START + second)
            out.write(b"".join(stamp + sentence_of(one, second) + b"\n" for one in by_phase[second % 60]))
    os.replace(name + ".part", name)


def sentence_of(one: "Rover | Guest", second: int) -> bytes:
    """Returns what `sentence(class_a(..))` does, in a seventh of its time: the bits of message 1 in one number."""
    x, y, speed, course = one.at(second)
    bits = (
        1 << 162 | one.mmsi << 130 | one.status << 126 | 128 << 118 | speed << 108 | (round(x * METRE) & MASK_28) << 79
    )
    bits |= (round(y * METRE) & MASK_27) << 52 | course << 40 | course // 10 << 31 | second % 60 << 25
    body = b"AIVDM,1,1,,A,%s,0" % base64.b64encode(bits.to_bytes(21, "big")).translate(FROM_64)
    total = int.from_bytes(body, "big")
    for width in (256, 128, 64, 32, 16, 8):
        total = total >> width ^ total & (1 << width) - 1
    return b"!%s*%02X" % (body, total)


def archive(folder: str, vessels: int, days: int, jobs: int) -> list[str]:
    os.makedirs(folder, exist_ok=True)
    names = [os.path.join(folder, "%d-%03d.log.gz" % (vessels, day)) for day in range(days)]
    with concurrent.futures.ProcessPoolExecutor(jobs) as pool:
        list(pool.map(write_day, names, [vessels] * days, range(days)))
    return names


def spent(folder: str, name: str, words: list[str], out: str | None = None) -> str:
    """Runs a command, and prints a row of what it took; returns what it said on standard error."""
    report = os.path.join(folder, "time")
    with open(out or os.devnull, "wb") as target:
        begin = time.perf_counter()
        done = subprocess.run(["/usr/bin/time", "-q", "-f", "%U %S %M", "-o", report, *words], stdout=target,
                              stderr=subprocess.PIPE, text=True)
    with open(report, encoding="utf-8") as source:
        user, system, most = source.read().split()
    print(
        "| %s | %.1f | %.1f | %.0f MB |" %
        (name, time.perf_counter() - begin, float(user) + float(system), int(most) / 1000), flush=True)
    if done.returncode:
        sys.exit("%s ended with status %d: %s" % (name, done.returncode, done.stderr))
    return done.stderr


def measure(given: argparse.Namespace) -> None:
    names = archive(given.folder, given.vessels, given.days, given.jobs)
    scenario, jobs, kept, rows = (os.path.join(given.folder, name)
                                  for name in ("scenario.toml", "jobs", "kept", "rows"))
    with open(scenario, "w", encoding="utf-8") as out:
        out.write(SCENARIO)
    print("%d files, %.1f MB packed; load %.1f" %
          (len(names), sum(map(os.path.getsize, names)) / 1e6, os.getloadavg()[0]))
    print("| | seconds | CPU seconds | most memory |\n|---|---|---|---|")
    program = ["--program", os.path.abspath(given.program)]
    said = spent(given.folder, "plan", [MANY, "plan", scenario, *names, *given.more, *program], jobs)
    said += spent(given.folder, "plan, from the indexes", [MANY, "plan", scenario, *names, *given.more, *program], jobs)
    said += spent(given.folder, "run", [MANY, jobs, "--kept", kept, "--jobs", str(given.jobs), *program])
    said += spent(given.folder, "join", [MANY, "join", jobs, "--kept", kept, *program], rows)
    with open(jobs, encoding="utf-8") as source, open(rows, encoding="utf-8") as report:
        print("%d jobs, %d rows" %
              (sum(1 for _ in source), sum(bool(re.match("meeting|verdict", line)) for line in report)))
    print(said.rstrip("\n"))


def main() -> int:
    words = argparse.ArgumentParser(description=__doc__, formatter_class=argparse.RawDescriptionHelpFormatter)
    words.add_argument("program")
    words.add_argument("--folder", help="where to leave the files")
    words.add_argument("--vessels", type=int, default=300)
    words.add_argument("--days", type=int, default=30)
    words.add_argument("--jobs", type=int, default=4, help="at a time")
    words.add_argument("--make", action="store_true", help="only write the archive")
    words.add_argument("more", nargs="*", help="more words for `plan`, after --")
    given = words.parse_args()
    with tempfile.TemporaryDirectory() as folder:
        given.folder = given.folder or folder
        if given.make:
            archive(given.folder, given.vessels, given.days, given.jobs)
        else:
            measure(given)
    return 0


if __name__ == "__main__":
    sys.exit(main())
