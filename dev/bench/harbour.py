#!/usr/bin/env python3
"""Writes the made-up log of examples/harbour.log to standard output: twelve vessels in Elliott Bay for 400 seconds.

Each line has a tag block (NMEA 0183 4.10) with its time. Beside position reports there are ships' static reports in one
and in two sentences, and lines as receivers write them that say nothing: a wrong sum, another sentence, a damaged
payload, an empty line. The log is the same at each run.
"""
import math
import random
from collections.abc import Iterator

from sentences import START, Entry, Vessel, armour, position_report, sentence, tagged, voyage

NAMES = ["BRAVO ONE", "COASTAL STAR", "DELTA QUEEN", "EVERGREEN", "FAIRWIND", "GULL"]


def vessels(draw: random.Random) -> Iterator[Vessel]:
    for k in range(12):
        course = draw.randrange(0, 3600)
        yield {
            "mmsi": 366900001 + 137 * k,
            "kind": 18 if k % 4 == 3 else 1,
            "course": course,
            "speed": draw.randrange(20, 220),
            "north": 28549600 + draw.randrange(-30000, 30000),
            "east": -73407500 + draw.randrange(-40000, 40000),
            "period": draw.choice([10, 12, 20, 30]),
            "phase": draw.randrange(0, 10),
        }


def reports(vessel: Vessel) -> Iterator[Entry]:
    for elapsed in range(vessel["phase"], 401, vessel["period"]):
        way = vessel["speed"] * elapsed / 36000
        angle = math.radians(vessel["course"] / 10)
        north = round(vessel["north"] + way * math.cos(angle) * 10000)
        east = round(vessel["east"] + way * math.sin(angle) * 10000 / math.cos(math.radians(47.58)))
        bits_ = position_report(vessel["kind"], vessel["mmsi"], north, east, vessel["speed"], vessel["course"],
                                vessel["course"] // 10, elapsed % 60)
        payload, fill = armour(bits_)
        yield elapsed, [tagged(START + elapsed, sentence(1, 1, "", "AB"[elapsed % 2], payload, fill))]


def names(fleet: list[Vessel]) -> Iterator[Entry]:
    for k, vessel in enumerate(fleet[:6]):
        payload, fill = armour(voyage(vessel["mmsi"], NAMES[k], 70 + k, 80 + 10 * k, 20 + k, 10, 12))
        yield 3 * k, [
            tagged(START + 3 * k, sentence(2, 1, k, "A", payload[:56], 0)),
            sentence(2, 2, k, "A", payload[56:], fill)
        ]


def damage() -> Iterator[Entry]:
    yield 40, [tagged(START + 40, "!AIVDM,1,1,,A,15MqCp0P1tG?wbhK>c@6imL`0000,0*00")]
    yield 90, [tagged(START + 90, "$GPGGA,000130,4736.0,N,12220.0,W,1,08,1.0,0.0,M,,M,,*5B")]
    yield 91, [""]
    yield 150, [sentence(1, 1, "", "B", "177KQJ5000G?tO`K>RA1wUbN0zz", 0)]
    yield 200, [tagged(START + 200, "!AIVDM,1,1,,A,,0*26")]


def main() -> None:
    draw = random.Random(7)
    fleet = list(vessels(draw))
    lines = [entry for vessel in fleet for entry in reports(vessel)] + list(names(fleet)) + list(damage())
    for _, texts in sorted(lines, key=lambda entry: entry[0]):
        for line in texts:
            print(line)


if __name__ == "__main__":
    main()
