"""Where vessels report in the blocks of a file, as boxes of latitude and longitude: a plan of tiles reads these instead
of all points.

A box holds every position that a line of the block may report of a vessel, also if the program drops the line, so it
holds all that the program accepts, whatever the scenario. A message in parts has its place in the first one; a file
that has a shorter first part has no boxes.
"""
import base64
import itertools
import json
import re
import sys
from array import array
from collections.abc import Iterable, Iterator
from dataclasses import dataclass, field
from typing import BinaryIO, NamedTuple

from colregs.io.lines import JOINED_WITHIN
from colregs.io.sentences import TO_64
from colregs.model.earth import Earth
from colregs.model.scenario import Scenario
from colregs.shares.places import LONGEST, Box, Tile, mean, meets
from colregs.shares.reads import opened, pieces
from colregs.shares.spans import Span

VERSION = 1             # of the stored form
LEAST, MOST = 200000000, 799999999                      # MMSIs of ships
FARTHEST_EAST, FARTHEST_NORTH = 108000000, 54000000     # 1/10000 minute
HEADS = re.compile(rb"![A-Z0-9]{2}VD[MO],\d,1,\d?,[A-Za-z0-9]?,([123BC][0-W`-w]{19}|K[0-W`-w]{15})")
SHORT_PART = re.compile(rb"![A-Z0-9]{2}VD[MO],[2-9],1,\d?,[A-Za-z0-9]?,[^,\n]{1,21},")
LETTERS, BYTES = 20, 15                                 # of a head, and of its 120 bits
# by the type of a message: how far its longitude and latitude lie from the end of a head, their widths, and their unit
FIELDS = {1: (31, 28, 4, 27, 1), 2: (31, 28, 4, 27, 1), 3: (31, 28, 4, 27, 1), 18: (35, 28, 8, 27, 1),
          19: (35, 28, 8, 27, 1), 27: (58, 18, 41, 17, 1000)}
Degrees = list[int]                                     # west, south, east and north in 1/10000 minute


class Report(NamedTuple):
    """A vessel's MMSI and the place that she reports, in 1/10000 minute."""

    mmsi: int
    longitude: int
    latitude: int


def signed(value: int, width: int) -> int:
    """Returns a number in two's complement."""
    return value - (1 << width) if value >> (width - 1) else value


def reports_in(lines: bytes) -> Iterator[Report]:
    """Yields the positions that lines may report."""
    heads = b"".join(head.ljust(LETTERS, b"0") for head in set(HEADS.findall(lines)))
    bits = base64.b64decode(heads.translate(TO_64))
    for at in range(0, len(bits), BYTES):
        value = int.from_bytes(bits[at:at + BYTES], "big")
        east, wide, north, high, unit = FIELDS[value >> 114]
        longitude = unit * signed(value >> east & (1 << wide) - 1, wide)
        latitude = unit * signed(value >> north & (1 << high) - 1, high)
        mmsi = value >> 82 & 0x3FFFFFFF
        if LEAST <= mmsi <= MOST and abs(longitude) <= FARTHEST_EAST and abs(latitude) <= FARTHEST_NORTH:
            yield Report(mmsi, longitude, latitude)


@dataclass
class Part:
    """Successive blocks of a file: their stamps as those of one block, and the vessels' boxes."""

    begins: bool
    least: int
    greatest: int
    last: int
    boxes: dict[int, Degrees] = field(default_factory=dict)

    def take(self, lines: bytes) -> None:
        """Takes the positions that lines may report."""
        for mmsi, longitude, latitude in reports_in(lines):
            box = self.boxes.get(mmsi)
            if box is None:
                self.boxes[mmsi] = [longitude, latitude, longitude, latitude]
            else:
                box[:] = (min(box[0], longitude), min(box[1], latitude), max(box[2], longitude),
                          max(box[3], latitude))


def read_parts(span: Span) -> list[Part] | None:
    """Reads the boxes of a file by its blocks, those of some ten minutes together; None if it has none."""
    parts: list[Part] = []
    with opened(span.path, 0) as source:
        for block in span.blocks:
            lines = whole(source, block.size)
            if SHORT_PART.search(lines):
                return None
            if parts and is_near(parts[-1], block.least, block.greatest):
                part = parts[-1]
                if block.least <= block.greatest:
                    part.least, part.greatest, part.last = (min(part.least, block.least),
                                                            max(part.greatest, block.greatest), block.last)
            else:
                part = Part(block.begins, block.least, block.greatest, block.last)
                parts.append(part)
            part.take(lines)
    return parts


def whole(source: BinaryIO, size: int) -> bytes:
    """Returns the next bytes of a file."""
    return b"".join(pieces(source, size))


def is_near(part: Part, least: int, greatest: int) -> bool:
    """Returns whether a block is taken together with those before it: all of them last ten minutes at most, or the
    block has no stamp."""
    return least > greatest or part.least <= part.greatest and greatest - part.least <= LONGEST and least >= part.least


def stored_form(parts: list[Part] | None, state: list[int]) -> bytes:
    """Returns parts as a file holds them: a line of JSON, and then the boxes as numbers of four bytes."""
    numbers = array("i")
    for part in parts or []:
        for mmsi, box in part.boxes.items():
            numbers.extend((mmsi, *box))
    head = {
        "version": VERSION, "state": state, "order": sys.byteorder, "parts": None if parts is None else
        [[part.begins, part.least, part.greatest, part.last, len(part.boxes)] for part in parts]
    }
    return json.dumps(head).encode() + b"\n" + numbers.tobytes()


def parts_of_stored(stored: bytes, state: list[int]) -> tuple[bool, list[Part] | None]:
    """Returns whether a stored form is of a file in this state, and its parts."""
    try:
        line, _, rest = stored.partition(b"\n")
        head = json.loads(line)
        if (head["version"], head["state"], head["order"]) != (VERSION, state, sys.byteorder):
            return False, None
        if head["parts"] is None:
            return True, None
        numbers, parts, at = array("i", rest), list[Part](), 0
        for begins, least, greatest, last, count in head["parts"]:
            part = Part(begins, least, greatest, last)
            for k in range(at, at + 5 * count, 5):
                part.boxes[numbers[k]] = list(numbers[k + 1:k + 5])
            at += 5 * count
            parts.append(part)
        return (True, parts) if at == len(numbers) else (False, None)
    except (ValueError, KeyError, TypeError, IndexError):
        return False, None


class BoxPoints:
    """The places of a stretch of time by the boxes of its files: each box with those of the vessel that are so near
    before it that a way may lead from one to the other."""

    def __init__(self, files: Iterable[list[Part]], scenario: Scenario, bounds: tuple[int, int], until: int) -> None:
        """Takes the boxes of files in their order, the first and the last second of the whole's lines, and the end of
        the stretch."""
        self.until, self.reach = until, scenario.gap + scenario.slack
        self.first, self.last = bounds
        self.earth = Earth(scenario.values["reference"])
        self.parts: list[tuple[int, int, dict[int, Box]]] = []
        self.recent: dict[int, list[tuple[int, Box]]] = {}
        before = self.first
        for part in itertools.chain.from_iterable(files):
            self.take(part, before)
            before = part.last if part.least <= part.greatest else before
        self.recent = {}

    def take(self, part: Part, before: int) -> None:
        """Takes a part, where the last stamp before it is at a time, which lines before its first stamp have too. A
        message in parts may have its time after its first one's."""
        times = [part.least, part.greatest + JOINED_WITHIN] if part.least <= part.greatest else []
        times += [] if part.begins and times else [before, before + JOINED_WITHIN]
        first, last = (min(max(at, self.first), self.last) for at in (min(times), max(times)))
        own = {mmsi: self.plane(box) for mmsi, box in part.boxes.items()}
        self.parts.append((first, last, {mmsi: self.joined(mmsi, first, box) for mmsi, box in own.items()}))
        # a stamp that counts makes what is farther back late; any other one does not
        counts = self.first <= part.least <= self.last
        for mmsi, box in own.items():
            known = [one for one in self.recent.get(mmsi, []) if not counts or one[0] + self.reach >= first]
            self.recent[mmsi] = [*known, (last, box)]

    def plane(self, box: Degrees) -> Box:
        """Returns a box in metres of the plane. East and west of the reference half the way around meet; such a box is
        all the plane."""
        earth = self.earth
        sides = [(at - earth.longitude + FARTHEST_EAST) % (2 * FARTHEST_EAST) - FARTHEST_EAST for at in box[::2]]
        if sides[0] > sides[1] or box[2] - box[0] >= FARTHEST_EAST:
            sides = [-FARTHEST_EAST, FARTHEST_EAST]
        return (sides[0] / earth.east - 1, (box[1] - earth.latitude) / earth.north - 1, sides[1] / earth.east + 1,
                (box[3] - earth.latitude) / earth.north + 1)

    def joined(self, mmsi: int, first: int, box: Box) -> Box:
        """Returns a box with those before it from which a way may lead into it."""
        near = [known for last, known in self.recent.get(mmsi, []) if last + self.reach >= first]
        west, south, east, north = zip(box, *near)
        return min(west), min(south), max(east), max(north)

    def of_time(self, first: int, last: int) -> Iterator[dict[int, Box]]:
        """Yields the boxes of the parts that have a time of these seconds."""
        return (boxes for begin, end, boxes in self.parts if begin <= last and end >= first)

    def within(self, first: int, last: int) -> list[int]:
        """Returns who may report in these seconds."""
        return sorted(set[int]().union(*self.of_time(first, last)))

    def near(self, vessels: Iterable[int], tile: Tile, lines: tuple[int, int], margin: float) -> list[int]:
        """Returns which of these vessels come within a margin of a tile in these seconds."""
        found = {mmsi for boxes in self.of_time(*lines) for mmsi, box in boxes.items() if meets(box, tile, margin)}
        return [mmsi for mmsi in vessels if mmsi in found]

    def cuts(self, axis: int, count: int) -> list[int]:
        """Returns where to cut so that about as many boxes lie in each piece: from west to east for axis 0, from south
        to north for 1."""
        middles = sorted(mean(box[axis], box[axis + 2]) for _, _, boxes in self.parts for box in boxes.values())
        return sorted({round(middles[len(middles) * k // count]) for k in range(1, count)}) if middles else []
