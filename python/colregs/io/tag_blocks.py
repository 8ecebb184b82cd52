"""The one reader of tag blocks (NMEA 0183 4.10): the time that they have, their other fields, and what is outside
them."""
import re

from colregs.io.forms import Unsure
from colregs.io.sentences import has_sum, seconds

BLOCK = re.compile(rb"\\([^\\*]+)\*([0-9A-Fa-f]{2})\\")
FIELD = re.compile(rb"c:(\d{1,15})(?:\.\d*)?")
FIRST = re.compile(rb"\\(?:[^\\]*,)?c:(\d{1,15})[,*][^\\]*\\")
LATEST = 9999999999             # the latest time that ten digits hold


def stamp(line: bytes) -> int | None:
    """Returns the time in the tag block at the beginning of a line, as the program has it (docs/LOG.md), or None; sums
    are not checked."""
    found = FIRST.match(line)
    return seconds(found[1]) if found else None


def blocks(text: bytes) -> tuple[int | None, bytes, bytes]:
    """Returns the first time in the tag blocks of a text, their other fields, and what is outside them; raises Unsure
    if a block is damaged."""
    time, more = None, []
    for found in BLOCK.finditer(text):
        if not has_sum(found[1], found[2]):
            raise Unsure("a tag block with a wrong checksum")
        for field in found[1].split(b","):
            counted = FIELD.fullmatch(field)
            if counted and time is None:
                time = min(LATEST, seconds(counted[1]))
            elif not counted:
                more.append(field)
    rest = BLOCK.sub(b"", text)
    if b"\\" in rest:
        raise Unsure("a tag block that is none")
    return time, b",".join(more), rest
