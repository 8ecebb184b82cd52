"""Logs whose lines are JSON: AIS-catcher, gpsd (`gpspipe -w`), SignalK's deltas, and others that hold a sentence and a
time.

Sentences in an object are taken as they are. An object with only a ship's values becomes a position report, message 18
for class B and otherwise message 1, and message 24.
"""
import json
import math
import re
from collections.abc import Sequence
from dataclasses import dataclass
from typing import Any

from colregs.io import units
from colregs.io.forms import Times, Unsure
from colregs.io.sentences import Report
from colregs.io.tables import RowFault, Table

TIMES = ("rxuxtime", "rxtime", "timestamp", "@timestamp", "time", "received_at", "receivedAt", "datetime", "toa", "ts")
AISSTREAM_PLACES = ("PositionReport", "StandardClassBPositionReport", "ExtendedClassBPositionReport")
FASTEST = 102.2         # knots, for which gpsd has the word `fast`: the greatest speed of a message
FIX = "gpsd's TPV"
HELD = re.compile(r"![A-Z0-9]{2}VD[MO],")


@dataclass(frozen=True)
class Held:
    """What an object holds: a time or nothing, sentences as they are, or sentences made; or the name of what it is
    if it holds neither."""

    form: str
    time: int | None = None
    raw: Sequence[bytes] = ()
    made: Sequence[bytes] = ()
    fix: Report | None = None
    aside: bool = False


def value_of(line: bytes) -> Any:
    """Returns the value of a line of JSON, or None."""
    try:
        return json.loads(line.decode("utf-8", "replace"))
    except (ValueError, RecursionError):
        return None


def objects(value: Any) -> list[dict[str, Any]]:
    """Returns the objects of a value: those in a list, or in `msgs`."""
    if isinstance(value, list):
        return [each for entry in value for each in objects(entry)]
    if isinstance(value, dict) and isinstance(value.get("msgs"), list):
        return objects(value["msgs"])
    return [value] if isinstance(value, dict) else []


def time_of(held: dict[str, Any], times: Times) -> int | None:
    """Returns the time of an object, or None."""
    for key in TIMES:
        if isinstance(held.get(key), (str, int, float)):
            found = times.read(str(held[key]).encode())
            if found:
                return found[0]
    return None


def sentences_in(held: dict[str, Any]) -> list[bytes]:
    """Returns the sentences in an object: those of the first of its fields that has any."""
    for entries in held.values():
        entries = [entries] if isinstance(entries, str) else entries if isinstance(entries, list) else []
        found = [entry.encode() for entry in entries if isinstance(entry, str) and HELD.search(entry)]
        if found:
            return found
    return []


class Objects:
    """Reads the objects of a log."""

    def __init__(self, times: Times) -> None:
        self.times, self.ship = times, units.Ship()
        self.tables: dict[tuple[str, ...], Table] = {}

    def read(self, held: dict[str, Any]) -> Held:
        """Returns what an object holds."""
        name = {"AIS-catcher": "AIS-catcher's JSON"}.get(str(held.get("device")),
                                                         "gpsd's JSON" if "class" in held else "JSON with a sentence")
        try:
            time = time_of(held, self.times)
        except Unsure as doubt:
            return Held(f"JSON with {doubt}")
        raw = sentences_in(held)
        if raw:
            return Held(name, time, raw)
        try:
            if held.get("class") == "TPV":
                return self.fix(held, time)
            if held.get("class") == "AIS":
                return self.ais(held, time, name)
            if "updates" in held:
                return self.delta(held)
            if "MetaData" in held and "Message" in held:
                return self.aisstream(held)
            if "MMSI" in held and "LATITUDE" in held:
                return self.hub(held)
            if "ERROR" in held and "FORMAT" in held:
                if held["ERROR"] is False:
                    return Held("AISHub's answer", aside=True)
                return Held(f"AISHub's error: {held.get('ERROR_MESSAGE', '')}")
        except (ValueError, TypeError, KeyError, AttributeError, OverflowError, Unsure, RowFault):
            return Held("JSON with a field that is not what it should be")
        return Held("JSON of gpsd that is no report" if "class" in held else "JSON without a sentence", aside="class"
                    in held)

    def hub(self, held: dict[str, Any]) -> Held:
        """Returns the sentences of a vessel of AISHub's JSON, whose fields are those of its tables."""
        heads = tuple(held)
        if heads not in self.tables:
            self.tables[heads] = Table(heads, ",")
        table = self.tables[heads]
        time, made = table.fields({name: str(held[heads[at]]).strip() for name, at in table.at.items()}, self.times)
        return Held("AISHub's JSON (sentences made of its values)", time, made=made)

    def aisstream(self, held: dict[str, Any]) -> Held:
        """Returns the sentences of a message of aisstream.io, in knots and degrees."""
        kind, about = str(held["MessageType"]), held["MetaData"]
        told, time = held["Message"][kind], self.times.read(str(about["time_utc"]).encode())
        mmsi, made = int(told.get("UserID", about["MMSI"])), list[bytes]()
        if kind in AISSTREAM_PLACES:
            report = units.report(told["Latitude"], told["Longitude"], told.get("Sog"), told.get("Cog"),
                                  told.get("TrueHeading"), second=int(told.get("Timestamp", 60)) & 63)
            made += self.ship.static(mmsi, str(about.get("ShipName", "")).strip(), 0, (0, 0, 0, 0))
            made.append(self.ship.position(mmsi, report, kind != "PositionReport",
                                           units.status(told.get("NavigationalStatus", 15))))
        elif kind in ("ShipStaticData", "StaticDataReport"):
            for part in (told, told.get("ReportA") or {}, told.get("ReportB") or {}):
                size = part.get("Dimension") or {}
                hull = units.hull([units.number(size.get(side)) for side in "ABCD"], None, None)
                made += self.ship.static(mmsi, str(part.get("Name", "")).strip(),
                                         units.kind(part.get("Type", part.get("ShipType", ""))), hull,
                                         str(part.get("CallSign", "")).strip())
        if not made or time is None:
            return Held("aisstream.io's message without a place or a ship's data", aside=True)
        return Held("aisstream.io's JSON (sentences made of its values)", time[0], made=made)

    def fix(self, held: dict[str, Any], time: int | None) -> Held:
        """Returns own ship's time and place from gpsd, which has metres per second and degrees."""
        if time is None or held.get("mode", 0) < 2 and "lat" in held:
            return Held("gpsd's TPV without a valid fix", aside=True)
        report = units.report(held.get("lat"), held.get("lon"), units.in_knots(held.get("speed")), held.get("track"),
                              None, second=time % 60)
        return Held(FIX, time, fix=report if "lat" in held and "lon" in held else None)

    def ais(self, held: dict[str, Any], time: int | None, name: str) -> Held:
        """Returns the sentences of an AIS message from gpsd or AIS-catcher, in knots and degrees, or unscaled in the
        message's own units."""
        mmsi, made = int(held["mmsi"]), []
        if not 0 <= mmsi < 1 << 30:
            raise ValueError(mmsi)
        sides = [units.number(held.get("to_" + side, "")) for side in ("bow", "stern", "port", "starboard")]
        made += self.ship.static(mmsi, held.get("shipname", ""), units.kind(held.get("shiptype", "")),
                                 units.hull(sides, 0, 0), held.get("callsign", ""))
        if held.get("type") in (1, 2, 3, 18, 19):
            place, part = (600000, 10) if held.get("scaled", True) is False else (1, 1)
            units_of = ("lat", place), ("lon", place), ("speed", part), ("course", part), ("heading", 1)
            told = {name: value if value is None else value / unit for name, unit in units_of
                    for value in [units.number(None if held.get(name) == "fast" else held.get(name))]}
            knots = FASTEST if held.get("speed") == "fast" else told["speed"]
            report = units.report(told["lat"], told["lon"], knots, told["course"], told["heading"],
                                  second=int(held.get("second", 60)) & 63)
            made.append(self.ship.position(mmsi, report, held["type"] in (18, 19),
                                           units.status(held.get("status", 15))))
        if not made:
            return Held("JSON of gpsd that is no report", aside=True)
        return Held(name + " (sentences made of its values)", time, made=made)

    def delta(self, held: dict[str, Any]) -> Held:
        """Returns the sentences of a delta of SignalK, which has metres per second and radians. Own ship, which it
        calls self, has no MMSI."""
        found = re.search(r"mmsi:(\d{9})$", str(held.get("context", "")))
        if not found:
            return Held("SignalK's delta of own ship or of no ship", aside=True)
        made, time = [], None
        for update in held["updates"]:
            told = {entry["path"]: entry["value"] for entry in update["values"]}
            at = self.times.read(str(update.get("timestamp", "")).encode())
            time = at[0] if at else time
            made += self.of_delta(int(found[1]), told, time or 0)
        if not made or time is None:
            return Held("SignalK's delta without a place", aside=True)
        return Held("SignalK's delta (sentences made of its values)", time, made=made)

    def of_delta(self, mmsi: int, told: dict[str, Any], time: int) -> list[bytes]:
        """Returns the sentences of one update of a delta."""
        length = (told.get("design.length") or {}).get("overall")
        kind = (told.get("design.aisShipType") or {}).get("id", "")
        made = self.ship.static(mmsi, (told.get("") or {}).get("name", ""), units.kind(kind),
                                units.hull((), length, told.get("design.beam")))
        place = told.get("navigation.position")
        if place:
            way, course, heading = (told.get("navigation." + name)
                                    for name in ("speedOverGround", "courseOverGroundTrue", "headingTrue"))
            report = units.report(place["latitude"], place["longitude"], units.in_knots(way),
                                  course if course is None else math.degrees(course),
                                  heading if heading is None else round(math.degrees(heading)) % 360, second=time % 60)
            made.append(self.ship.position(mmsi, report, told.get("sensors.ais.class") == "B", 15))
        return made
