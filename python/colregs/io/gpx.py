"""Tracks of own ship in GPX: points with a time, and perhaps speed and course, which may be spread over lines."""
import re
from collections.abc import Iterator

from colregs.io import units
from colregs.io.forms import Times, Unsure
from colregs.io.sentences import Report

TOKEN = re.compile(rb"<trkpt\b([^>]*)>|<(time|speed|course)>([^<]*)</|(</trkpt>)")
ATTRIBUTE = re.compile(rb"""\b(lat|lon)\s*=\s*["']([^"']*)["']""")
TAG = re.compile(
    rb"\s*<(?:\?xml|gpx|/?trk|/?trkseg|trkpt|/trkpt|/gpx|metadata|ele|time|speed|course|name|bounds"
    rb"|/metadata|extensions|/extensions)\b"
)


class Gpx:
    """Reads the points of a track, line by line."""

    def __init__(self, times: Times) -> None:
        self.times, self.line = times, b""
        self.point: dict[bytes, bytes] | None = None

    def takes(self, line: bytes) -> bool:
        """Takes a line if it is one of GPX, and returns whether it is."""
        self.line = line if TAG.match(line) else b""
        return bool(self.line)

    def found(self) -> Iterator[tuple[int, Report]]:
        """Yields the time and the report of each point that ends in the line that was taken."""
        for token in TOKEN.finditer(self.line):
            if token[1] is not None:
                self.point = dict(ATTRIBUTE.findall(token[1]))
            elif token[2] and self.point is not None:
                self.point[token[2]] = token[3].strip()
            elif token[4] and self.point is not None:
                point, self.point = self.point, None
                told = self.report(point)
                if told:
                    yield told

    def report(self, point: dict[bytes, bytes]) -> tuple[int, Report] | None:
        """Returns the time and the report of a point, or None if it lacks a time or a place."""
        try:
            time = self.times.read(point.get(b"time", b""))
            latitude, longitude = (units.number(point.get(key, b"").decode()) for key in (b"lat", b"lon"))
            speed, course = (units.number(point.get(key, b"").decode()) for key in (b"speed", b"course"))
        except (Unsure, ValueError):
            return None
        if time is None or latitude is None or longitude is None:
            return None
        return time[0], units.report(latitude, longitude, units.in_knots(speed), course, None, second=time[0] % 60)
