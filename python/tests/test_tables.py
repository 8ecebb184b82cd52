"""Tables of positions by their headers, read back by gpsdecode and by libais (python3-ais); the examples through
MarineCadastre's columns and back."""
import json
import math
import subprocess
import sys
import time
import unittest
from typing import Any

from given import InFolder, example, needs, text_of, with_program
from colregs.io.sources import Gathered, gather
from encounters import ENCOUNTERS, METRES, reported, states
import tomllib

CADASTRE = (
    "MMSI,BaseDateTime,LAT,LON,SOG,COG,Heading,VesselName,IMO,CallSign,VesselType,Status,Length,Width,Draft,Cargo,TransceiverClass\n"
    "200000011,2023-11-14T22:13:21,48.25000,-123.58234,14.0,90.5,91,ELM,IMO1234567,WDA1234,70,0,120,20,5.0,70,A\n"
    "367000001,2023-11-14T22:13:22,48.25010,-123.58230,0.1,-49.6,511,\"BOAT, SMALL\",,,37,,8,3,,,B\n")
CADASTRE_NEW = (
    "mmsi,base_date_time,longitude,latitude,sog,cog,heading,vessel_name,imo,call_sign,vessel_type,status,length,width,draft,cargo,"
    "transceiver\n200000011,2023-11-14 22:13:21,-123.58234,48.25,14,90.5,91,ELM,,WDA1234,70,0,120,20,5,70,A\n"
    "367000001,2023-11-14 22:13:22,-123.5823,48.2501,0.1,360,511,\"BOAT, SMALL\",,,37,,8,3,,,B\n")
DMA = ("# Timestamp,Type of mobile,MMSI,Latitude,Longitude,Navigational "
       "status,ROT,SOG,COG,Heading,IMO,Callsign,Name,Ship type,Cargo type,Width,"
       "Length,Type of position fixing device,Draught,Destination,ETA,Data source type,A,B,C,D\n"
       "14/11/2023 22:13:21,Class A,200000011,48.250000,-123.582340,Under way using "
       "engine,0.0,14.0,90.5,91,Unknown,WDA1234,ELM,Cargo,,20,120,"
       "GPS,5.0,KOBENHAVN,,AIS,0,120,0,20\n14/11/2023 22:13:21,Base Station,2190068,55.6,12.6,Unknown "
       "value,,,,,Unknown,Unknown,,Undefined,,,,,,,,AIS,,,,\n"
       "14/11/2023 22:13:22,Class B,367000001,48.2501,-123.5823,Unknown value,,0.1,360.0,511,Unknown,,\"BOAT, "
       "SMALL\",Pleasure,,3,8,GPS,,,,AIS,,,,\n")
HUB = ("MMSI,TSTAMP,LATITUDE,LONGITUDE,COG,SOG,HEADING,ROT,NAVSTAT,IMO,NAME,CALLSIGN,TYPE,A,B,C,D,DRAUGHT,DEST,ETA\n"
       "200000011,2023-11-14 22:13:21 "
       "GMT,48.25,-123.58234,90.5,14,91,0,0,9123456,ELM,WDA1234,70,0,120,0,20,5,KIEL,11-20 10:00\n")
HUB_RAW = ("MMSI,TIME,LONGITUDE,LATITUDE,COG,SOG,HEADING,ROT,NAVSTAT,IMO,NAME,CALLSIGN,TYPE,A,B,C,D,DRAUGHT,DEST,ETA\n"
           "200000011,1700000001,-74149404,28950000,905,140,91,128,0,9123456,ELM,WDA1234,70,0,120,0,20,50,KIEL,11-20 "
           "10:00\n")
# the fields above by the names of gpsdecode: degrees, knots, metres; 360 and 511 mean none
ELM = {
    "type": 1, "mmsi": 200000011, "status": 0, "speed": 14.0, "lon": -123.58234, "lat": 48.25, "course": 90.5,
    "heading": 91, "second": 21
}
ELM_NAME = {"type": 24, "mmsi": 200000011, "shipname": "ELM"}
ELM_HULL = {"shiptype": 70, "callsign": "WDA1234", "to_bow": 0, "to_stern": 120, "to_port": 0, "to_starboard": 20}
BOAT = {
    "type": 18, "mmsi": 367000001, "speed": 0.1, "lon": -123.5823, "lat": 48.2501, "course": 360.0, "heading": 511,
    "second": 22
}
LIBAIS = """
import ais, json, sys
for line in sys.stdin:
    fields = line.strip().split(',')
    print(json.dumps(ais.decode(fields[5], int(fields[6][0]))))
"""


def with_libais() -> str | None:
    """Returns a Python that has libais, or None."""
    for python in (sys.executable, "/usr/bin/python3"):
        if subprocess.run([python, "-c", "import ais; ais.decode"], capture_output=True).returncode == 0:
            return python
    return None


class Tables(InFolder):
    def made(self, table: str) -> tuple[Gathered, list[str]]:
        found = gather([self.write("table.csv", table)], self.path("out"))
        self.assertEqual(found.unread, {})
        return found, [line.split("\\")[2] for line in text_of(self.path("out")).splitlines()]

    def holds(self, read: list[dict[str, Any]], wanted: dict[str, Any]) -> None:
        """Checks that one of the messages has all these values."""
        self.assertTrue(any(all(message.get(key) == value for key, value in wanted.items()) for message in read),
                        (wanted, read))

    @needs("gpsdecode")
    def test_each_head_is_known_and_gpsdecode_reads_what_the_table_says(self) -> None:
        for name, table in (("MarineCadastre", CADASTRE), ("MarineCadastre", CADASTRE_NEW), ("DMA", DMA),
                            ("AISHub", HUB), ("AISHub", HUB_RAW)):
            with self.subTest(table[:40]):
                found, sentences = self.made(table)
                self.assertIn("row of " + name, found.forms)
                decoded = subprocess.run(["gpsdecode", "-j"], input="\n".join(sentences) + "\n", capture_output=True,
                                         text=True).stdout
                read = [json.loads(line) for line in decoded.splitlines()]
                wanted: list[dict[str, Any]] = [ELM, ELM_NAME, {**ELM_NAME, **ELM_HULL}]
                wanted += [BOAT] if name != "AISHub" else []
                for each in wanted:
                    self.holds(
                        read, {key: value for key, value in each.items() if key != "shipname" or "shiptype" not in each}
                    )
                self.assertEqual(found.first, 1700000001)

    def test_libais_reads_the_same(self) -> None:
        python = with_libais()
        if python is None:
            self.skipTest("python3-ais is not installed")
        _, sentences = self.made(CADASTRE)
        done = subprocess.run([python, "-c", LIBAIS], input="\n".join(sentences), capture_output=True, text=True)
        read = [json.loads(line) for line in done.stdout.splitlines()]
        self.assertEqual(len(read), len(sentences))
        for message in read:
            message.update({key: round(message[key], 5) for key in ("x", "y", "sog", "cog") if key in message})
        self.holds(
            read, {
                "id": 1, "mmsi": 200000011, "nav_status": 0, "sog": 14.0, "x": -123.58234, "y": 48.25, "cog": 90.5,
                "true_heading": 91
            })
        self.holds(
            read,
            {"id": 18, "mmsi": 367000001, "sog": 0.1, "x": -123.5823, "y": 48.2501, "cog": 360.0, "true_heading": 511})
        self.holds(read, {"id": 24, "mmsi": 200000011, "part_num": 0, "name": "ELM" + "@" * 17})
        self.holds(
            read, {
                "id": 24, "mmsi": 200000011, "part_num": 1, "type_and_cargo": 70, "dim_a": 0, "dim_b": 120, "dim_c": 0,
                "dim_d": 20
            })

    def test_missing_fields_of_a_row_are_reported_and_the_others_stay(self) -> None:
        bad = (
            "200000011,2023-11-14T22:13:31,x,-123.58234,14.0,90.5,91,ELM,,,70,0,120,20,5.0,70,A\n200000011,2023-11-14T22:13:31,48.25\n"
            "none,2023-11-14T22:13:31,48.25,-123.5,14.0,90.5,91,ELM,,,70,0,120,20,5.0,70,A\n200000011,14/11/2023 "
            "22:13,48.25,-123.5,14.0,90.5,91,"
            "ELM,,,70,0,120,20,5.0,70,A\n")
        found = gather([self.write("table.csv", CADASTRE + bad + CADASTRE)], self.path("out"))
        self.assertEqual(
            (found.forms["row of MarineCadastre"], sorted((name, told.count) for name, told in found.unread.items())),
            (4, [("a row whose MMSI is no number", 1), ("a row with a date whose day and month may be exchanged", 1),
                 ("a row with a field that is no number", 1),
                 ("a row with another number of fields than its head", 1)]))

    def test_unknown_columns_are_named(self) -> None:
        table = "mmsi;timestamp;lat;lon;velocity;way\n200000011;2023-11-14 22:13:21;48.25;-123.5;140;900\n"
        found, sentences = self.made(table)
        self.assertEqual((found.notes, len(sentences)), (["columns that are not read: velocity, way"], 1))

    def test_numbers_in_tenths_under_a_head_without_a_unit_are_not_guessed(self) -> None:
        table = "mmsi;timestamp;lat;lon;speed;course\n200000011;2023-11-14 22:13:21;48.25;-123.5;14;900\n200000011;2023-11-14 22:13:22;48.25;-123.5;140;90\n"
        found = gather([self.write("table.csv", table)], self.path("out"))
        self.assertEqual(sorted(found.unread), ["a row whose course is over 360: if it is in tenths, say so by --columns coursex10=HEAD",
                                                "a row whose speed is over 102.3: if it is in tenths, say so by --columns speedx10=HEAD"])

    @with_program
    def test_the_examples_through_marine_cadastre_and_back_have_the_same_pairs_kinds_and_rules(self) -> None:
        for name in ENCOUNTERS:
            with self.subTest(name):
                gather([self.write("table.csv", cadastre(name))], self.path("out"))
                report = self.program("audit", example(name + ".toml"), self.path("out"))
                self.assertEqual(said(report), said(text_of(example(name + ".csv"))))
                self.assertGreater(len(said(report)), 2)


def said(report: str) -> list[list[str]]:
    """Returns pairs, kinds and rules of a report."""
    rows = [row.split(",") for row in report.splitlines()]
    return sorted(row[:4] if row[0] == "meeting" else row[:5] for row in rows if row[0] in ("meeting", "verdict"))


def cadastre(name: str) -> str:
    """Returns an example in the form of MarineCadastre: degrees with five decimals, knots and degrees with one."""
    with open(example(name + ".toml"), "rb") as source:
        values = tomllib.load(source)
    window, reference, rows = values["window"], values["reference"], []
    for ship in ENCOUNTERS[name]():
        for second, east, north, course, speed in states(ship, window["ticks"] * window["tick"] + ship.period):
            if second >= ship.phase and (second - ship.phase) % ship.period == 0:
                way, angle, heading = reported(ship, second, course, speed)
                latitude = reference["lat"] / 600000 + north / METRES / 60
                longitude = reference["lon"] / 600000 + east / METRES / 60 / math.cos(
                    math.radians(reference["lat"] / 600000))
                clock = time.strftime("%Y-%m-%dT%H:%M:%S", time.gmtime(window["start"] + second))
                length, width, small = ship.hull[0] + ship.hull[1], ship.hull[2] + ship.hull[3], ship.message == 18
                rows.append(
                    f"{ship.mmsi},{clock},{latitude:.5f},{longitude:.5f},{way / 10:.1f},{angle / 10:.1f},{heading},{ship.name},,,"
                    f"{ship.kind},0,{length},{width},,,{'B' if small else 'A'}")
    return CADASTRE.splitlines()[0] + "\n" + "\n".join(sorted(rows)) + "\n"


if __name__ == "__main__":
    unittest.main()
