"""No-go areas, such as land, shoals and limits: reads them from GeoJSON and compares them with the path of a plan."""
from __future__ import annotations

import json
from collections.abc import Iterator, Mapping, Sequence
from dataclasses import dataclass

from colregs.errors import Fault
from colregs.io.files import read_text
from colregs.pilot.motion import Place, Rates, planned_path
from colregs.pilot.planner import Question
from colregs.pilot.route import on_plane
from colregs.pilot.scenario import PilotScenario
from colregs.pilot.states import Plan


@dataclass(frozen=True)
class Area:
    """An area with its holes: rings of places in metres on the plane. Each ring ends where it begins."""

    name: str
    rings: tuple[tuple[Place, ...], ...]

    def edges(self) -> Iterator[tuple[Place, Place]]:
        """Yields the edges of all rings."""
        for ring in self.rings:
            yield from zip(ring, ring[1:])

    def holds(self, place: Place) -> bool:
        """Returns whether a place is inside: a line to the east crosses the edges an odd number of times."""
        x, y = place
        crossings = 0
        for (a, b), (c, d) in self.edges():
            if (b > y) != (d > y) and x < a + (y - b) * (c - a) / (d - b):
                crossings += 1
        return crossings % 2 == 1

    def is_entered(self, path: Sequence[Place]) -> bool:
        """Returns whether a path enters the area or touches its edge."""
        if any(self.holds(place) for place in path):
            return True
        return any(cross(one, two, *edge) for one, two in zip(path, path[1:]) for edge in self.edges())


def side(a: Place, b: Place, c: Place) -> float:
    """Returns a positive number if `c` is to the left of the line from `a` to `b`, and a negative one if to the
    right."""
    return (b[0] - a[0]) * (c[1] - a[1]) - (b[1] - a[1]) * (c[0] - a[0])


def cross(a: Place, b: Place, c: Place, d: Place) -> bool:
    """Returns whether two straight lines cross or touch."""
    if max(a[0], b[0]) < min(c[0], d[0]) or max(c[0], d[0]) < min(a[0], b[0]) or max(a[1], b[1]) < min(
            c[1], d[1]) or max(c[1], d[1]) < min(a[1], b[1]):
        return False
    return side(a, b, c) * side(a, b, d) <= 0 and side(c, d, a) * side(c, d, b) <= 0


def polygons_of(value: object, name: str) -> Iterator[tuple[str, object]]:
    """Yields the coordinates of each polygon of a GeoJSON value, with the name of its feature. Raises Fault if a part
    is not an area."""
    if not isinstance(value, Mapping):
        raise Fault("an item is not a JSON object")
    kind = value.get("type")
    if kind == "FeatureCollection":
        for number, feature in enumerate(listed(value.get("features")), 1):
            yield from polygons_of(feature, f"area {number}")
    elif kind == "Feature":
        more = value.get("properties")
        yield from polygons_of(value.get("geometry"),
                               str(more["name"]) if isinstance(more, Mapping) and more.get("name") else name)
    elif kind == "Polygon":
        yield name, value.get("coordinates")
    elif kind == "MultiPolygon":
        for coordinates in listed(value.get("coordinates")):
            yield name, coordinates
    else:
        raise Fault(f"`{kind}` is not an area; write polygons, alone, in features or in feature collections")


def listed(value: object) -> list[object]:
    """Returns a GeoJSON value that must be a list; raises Fault otherwise."""
    if not isinstance(value, list):
        raise Fault("a list is missing")
    return value


def ring_in_degrees(value: object) -> tuple[Place, ...]:
    """Returns a ring as longitudes and latitudes in degrees, and closes it if it is open. Raises Fault if it is not a
    ring."""
    places: list[Place] = []
    for pair in listed(value):
        numbers = listed(pair)[:2]
        if len(numbers) < 2 or any(type(number) not in (int, float) for number in numbers):
            raise Fault("a position is not two numbers")
        longitude, latitude = (float(str(number)) for number in numbers)
        if not (abs(longitude) <= 180 and abs(latitude) <= 90):
            raise Fault(f"{longitude}, {latitude} is not a longitude and a latitude in degrees")
        places.append((longitude, latitude))
    if len(places) < 3:
        raise Fault("a ring has fewer than three positions")
    return tuple(places if places[0] == places[-1] else places + places[:1])


def read_areas(path: str, scenario: PilotScenario) -> list[Area]:
    """Reads the areas of a GeoJSON file onto the plane of a scenario. A Fault names the file and the problem."""
    return [
        Area(
            area.name,
            tuple(
                tuple(
                    on_plane((latitude, longitude), scenario.latitude, scenario.longitude)
                    for longitude, latitude in ring)
                for ring in area.rings))
        for area in areas_in_degrees(path)
    ]


def areas_in_degrees(path: str) -> list[Area]:
    """Reads the areas of a GeoJSON file as longitudes and latitudes. A Fault names the file and the problem."""
    try:
        value = json.loads(read_text(path))
        return [
            Area(name, tuple(ring_in_degrees(ring) for ring in listed(rings)))
            for name, rings in polygons_of(value, "the area")
        ]
    except (ValueError, RecursionError) as error:
        raise Fault(f"{path}: not JSON: {str(error)[:80]}") from None
    except Fault as fault:
        raise Fault(f"{path}: not a GeoJSON file of areas: {fault}") from None


class Barrier:
    """Finds the area that a plan enters. It ignores an area that own ship is already in, because every plan would enter
    it."""

    def __init__(self, scenario: PilotScenario, areas: list[Area]) -> None:
        """`areas` are the no-go areas on the scenario's plane."""
        self.scenario, self.areas = scenario, areas
        self.rates = Rates(scenario.turn_rate / 10 / scenario.tick, scenario.speed_rate / 10 / scenario.tick)

    def holding(self, place: Place | None) -> list[str]:
        """Returns the names of the areas that contain a place."""
        return [area.name for area in self.areas if place is not None and area.holds(place)]

    def __call__(self, plan: Plan, question: Question) -> str:
        """Returns the name of the first area that a plan enters, in backquotes, or an empty text."""
        if question.place is None or question.reported is None:
            return ""
        path = planned_path(question.place, question.reported, plan, self.rates, self.scenario.tick,
                            question.window.ends)
        open_areas = (area for area in self.areas if not area.holds(path[0]))
        return next((f"`{area.name}`" for area in open_areas if area.is_entered(path)), "")
