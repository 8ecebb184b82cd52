"""Fields of tables and of JSON in knots, degrees and metres, as the numbers of AIS messages. An empty field has no
value."""
import re
from collections.abc import Sequence

from colregs.io.sentences import (NO_COURSE, NO_HEADING, NO_LATITUDE, NO_LONGITUDE, NO_SPEED, Hull, Report, class_a,
                                  class_b, hull_part, name_part, sentence)

NOTHING = ("", "nan", "null", "none", "n/a", "na", "\\n", "undefined", "unknown")
STATUSES = {
    "under way using engine": 0, "at anchor": 1, "not under command": 2, "restricted maneuverability": 3,
    "restricted manoeuvrability": 3, "constrained by her draught": 4, "constrained by draught": 4, "moored": 5,
    "aground": 6, "engaged in fishing": 7, "under way sailing": 8
}
KINDS = {
    "fishing": 30, "towing": 31, "towing long/wide": 32, "dredging": 33, "diving": 34, "military": 35, "sailing": 36,
    "pleasure": 37, "hsc": 40, "pilot": 50, "sar": 51, "tug": 52, "port tender": 53, "anti-pollution": 54,
    "law enforcement": 55, "medical": 58, "passenger": 60, "cargo": 70, "tanker": 80, "other": 90, "reserved": 0
}


def number(text: str | float | None) -> float | None:
    """Returns the number of a field, or None if the field is empty; raises ValueError if it is no number, or not
    finite."""
    if text is None:
        return None
    try:
        value = float(text)
    except ValueError:
        if str(text).strip().lower() in NOTHING:
            return None
        raise
    if value != value:
        return None
    if abs(value) > 1e12:
        raise ValueError(text)
    return value


KNOTS = 3600 / 1852             # of a metre a second
SEXAGESIMAL = re.compile(r"([NSEWnsew])?\s*(-?\d{1,3})(?:\s*[\u00b0\u00ba]\s*|\s+)(\d{1,2}(?:[.,]\d+)?)\s*['\u2032]?\s*"
                         r"(?:(\d{1,2}(?:[.,]\d+)?)\s*[\"\u2033]?\s*)?([NSEWnsew])?")
# with a side a hyphen may follow the degrees, or nothing, as in NMEA: 55-06.0N, 5506.0N
SIDED = re.compile(r"()(\d{1,3})(?:-|(?=\d\d[.,]))(\d{1,2}(?:[.,]\d+)?)\s*'?\s*()([NSEWnsew])")
DECIMAL = re.compile(r"([NSEWnsew])?\s*(-?\d+(?:[.,]\d+)?)\s*[\u00b0\u00ba]?\s*([NSEWnsew])?")
FARTHEST = 181          # degrees, which stand for no longitude: a greater number with a point is in another unit


def decimal(text: str) -> float | None:
    """Returns the number of a field that may have a decimal comma."""
    return number(text.replace(",", ".") if re.fullmatch(r"\s*-?\d+,\d+\s*", text) else text)


def degrees(text: str) -> float | None:
    """Returns degrees of a field with degrees, or degrees and minutes, or seconds too, and perhaps N, S, E or W."""
    plain = text.strip()
    found = DECIMAL.fullmatch(plain)
    if found and (abs(value := float(found[2].replace(",", "."))) <= FARTHEST or found[2].lstrip("-").isdigit()):
        sides = found[1], found[3]
    elif found := SIDED.fullmatch(plain) or SEXAGESIMAL.fullmatch(plain):
        minutes, seconds = (float((part or "0").replace(",", ".")) for part in (found[3], found[4]))
        if minutes >= 60 or seconds >= 60:
            raise ValueError(text)
        size = abs(int(found[2])) + minutes / 60 + seconds / 3600
        value, sides = -size if found[2].startswith("-") else size, (found[1], found[5])
    elif re.fullmatch(r"-?\d+[.,]\d+", plain):
        raise ValueError(text)
    else:
        return number(text)
    side = (sides[0] or sides[1] or "").upper()
    return -value if side in ("S", "W") else value


def latitude(degrees: float | None) -> int:
    """Returns a latitude in 1/10000 minute."""
    return NO_LATITUDE if degrees is None or abs(degrees) > 90 else round(degrees * 600000)


def longitude(degrees: float | None) -> int:
    """Returns a longitude in 1/10000 minute."""
    return NO_LONGITUDE if degrees is None or abs(degrees) > 180 else round(degrees * 600000)


def speed(knots: float | None) -> int:
    """Returns knots as tenths. A number below zero overflowed ten bits: 102.3 knots stand for none."""
    tenths = NO_SPEED if knots is None else round(knots * 10)
    tenths += 1024 if -512 <= tenths < 0 else 0
    return NO_SPEED if tenths == NO_SPEED or tenths < 0 else min(1022, tenths)


def in_knots(metres: float | None) -> float | None:
    """Returns knots of metres per second."""
    return None if metres is None else metres * KNOTS


def course(degrees: float | None) -> int:
    """Returns degrees as tenths. A number below zero overflowed twelve bits: 360 degrees stand for none."""
    tenths = NO_COURSE if degrees is None else round(degrees * 10)
    tenths += 4096 if -2048 <= tenths < 0 else 0
    return tenths if 0 <= tenths < 3600 else NO_COURSE


def heading(value: float | None) -> int:
    """Returns a heading in degrees."""
    return NO_HEADING if value is None or not 0 <= round(value) < 360 else round(value)


def report(north: float | None, east: float | None, knots: float | None, track: float | None, head: float | None, *,
           second: int) -> Report:
    """Returns a report of a latitude and a longitude, a course and a heading in degrees, as a message has it."""
    return latitude(north), longitude(east), speed(knots), course(track), heading(head), second


def status(text: object) -> int:
    """Returns the navigational status of a number or of words."""
    plain = str(text).strip().lower()
    if plain.isascii() and plain.isdigit():
        return int(plain) if int(plain) <= 15 else 15
    return STATUSES.get(plain, 15)


def kind(text: object) -> int:
    """Returns the type of ship of a number or of a name."""
    plain = str(text).strip().lower()
    try:
        value = number(plain)
    except ValueError:
        return KINDS.get(plain, 0)
    return int(value) if value is not None and 0 <= value <= 255 else 0


def hull(sides: Sequence[float | None], length: float | None, width: float | None) -> Hull:
    """Returns metres to bow, stern, port and starboard. If only length and width are known, those to bow and port are
    0, as in ITU-R M.1371."""
    if any(sides):
        bow, stern, port, starboard = (min(most, round(side or 0)) for side, most in zip(sides, (511, 511, 63, 63)))
        return bow, stern, port, starboard
    return 0, min(511, round(length or 0)), 0, min(63, round(width or 0))


class Ship:
    """Makes sentences from what a table or JSON says of ships: static data when it is new or has changed."""

    def __init__(self) -> None:
        self.known: dict[tuple[int, str], object] = {}

    def static(self, mmsi: int, name: str, kind_of: int, hull_of: Hull, call: str = "") -> list[bytes]:
        """Returns sentences with a ship's static data if it is new or has changed."""
        told = []
        if name and self.known.get((mmsi, "name")) != name:
            self.known[mmsi, "name"] = name
            told.append(sentence(name_part(mmsi, name)))
        if (kind_of or any(hull_of)) and self.known.get((mmsi, "hull")) != (kind_of, hull_of):
            self.known[mmsi, "hull"] = kind_of, hull_of
            told.append(sentence(hull_part(mmsi, kind_of, hull_of, call)))
        return told

    @staticmethod
    def position(mmsi: int, report: Report, small: bool, status_of: int) -> bytes:
        """Returns a position report of class A, or of class B if `small` is set."""
        return sentence(class_b(mmsi, report) if small else class_a(mmsi, report, status_of))
