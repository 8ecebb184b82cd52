"""The region of a case: vessels that were never in it are left out of the log.

A vessel that was in it is kept with all of her reports, also those outside: without them she would seem to vanish at
its edge.
"""
import os
import re
from collections.abc import Callable

from colregs.errors import Fault
from colregs.io.sentences import lone_message, place_of
from colregs.pilot.areas import areas_in_degrees

NUMBER = r"-?\d+(?:\.\d+)?"
BOX = re.compile(f"({NUMBER}),({NUMBER}),({NUMBER}),({NUMBER})")
DEGREE = 600000                 # 1/10000 minute
Region = Callable[[float, float], bool]


def region_of(word: str) -> Region:
    """Returns whether a longitude and latitude in degrees lie in a region: a box SOUTH,WEST,NORTH,EAST or the polygons
    of a GeoJSON file."""
    found = BOX.fullmatch(word)
    if found is None:
        areas = areas_in_degrees(word)
        return lambda x, y: any(area.holds((x, y)) for area in areas)
    south, west, north, east = (float(part) for part in found.groups())
    if not (-90 <= south < north <= 90 and -180 <= west <= 180 and -180 <= east <= 180):
        raise Fault(f"--area={word}: a box is south, west, north and east in degrees, south below north")
    if west > east:             # across the date line
        return lambda x, y: south <= y <= north and (x >= west or x <= east)
    return lambda x, y: south <= y <= north and west <= x <= east


def sender(line: bytes) -> tuple[int, tuple[int, int] | None] | None:
    """Returns the MMSI of a message in one sentence, and its place if it is a ship's report with one."""
    message = lone_message(line)
    return (message.number(8, 30), place_of(message)) if message and message.length >= 38 else None


def keep_only(log: str, region: Region) -> tuple[int, int]:
    """Leaves out of a log the messages in one sentence of vessels that are never in a region; returns how many vessels
    stay and how many are left out."""
    inside: set[int] = set()
    every: set[int] = set()
    with open(log, "rb") as source:
        for told in filter(None, map(sender, source)):
            if told[1]:
                every.add(told[0])
                if told[0] not in inside and region(told[1][1] / DEGREE, told[1][0] / DEGREE):
                    inside.add(told[0])
    outside, part = every - inside, log + ".part"
    with open(log, "rb") as source, open(part, "wb") as out:
        out.writelines(line for line in source if (known := sender(line)) is None or known[0] not in outside)
    os.replace(part, log)
    return len(inside), len(outside)
