"""Where on the earth a place of the scenario's plane is (docs/PLANE.md), and how moments and features are written for a
map."""
import json
import math
import time
from collections.abc import Iterable, Mapping


class Earth:
    """Degrees of longitude and latitude of places on the scenario's plane, which are in metres."""

    def __init__(self, reference: Mapping[str, int]) -> None:
        self.latitude, self.longitude = int(reference["lat"]), int(reference["lon"])
        tenths = (2 * abs(self.latitude) + 60000) // 120000
        self.cosine = round(math.cos(math.radians(tenths / 10)) * 1000000)
        self.east = 10000 * 1000000 / (1852 * self.cosine)      # 1/10000 minute of longitude in a metre
        self.north = 10000 / 1852

    def degrees(self, x: float, y: float) -> list[float]:
        """Returns longitude and latitude in degrees, exact to 1/10000 minute as in the log."""
        return [
            round((self.longitude + round(x * self.east)) / 600000, 7),
            round((self.latitude + round(y * self.north)) / 600000, 7)
        ]

    def words(self, xs: Iterable[float], ys: Iterable[float]) -> str:
        """Returns places as GeoJSON writes a line of them."""
        easts = ((self.longitude + round(x * self.east)) / 600000 for x in xs)
        norths = ((self.latitude + round(y * self.north)) / 600000 for y in ys)
        places = [f"[{east:.7f},{north:.7f}]" for east, north in zip(easts, norths)]
        return f"[{','.join(places)}]"


def iso(seconds: float) -> str:
    """Returns a moment in UTC as 2023-11-14T22:13:20Z."""
    return time.strftime("%Y-%m-%dT%H:%M:%SZ", time.gmtime(seconds))


def feature(shape: str, places: object, **more: object) -> str:
    """Returns the text of a feature of GeoJSON; its places are text too, or numbers."""
    inner = places if isinstance(places, str) else json.dumps(places, separators=(",", ":"))
    properties = json.dumps(more, separators=(",", ":"), ensure_ascii=False)
    return f'{{"type":"Feature","geometry":{{"type":"{shape}","coordinates":{inner}}},"properties":{properties}}}'
