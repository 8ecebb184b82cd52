"""For any bytes, each reader ends with a value or a named fault, each line is counted, and the output of `tagged` is
read unchanged.

The bytes are Hypothesis's (Debian package python3-hypothesis). Its seed is fixed, so that each run tries the same.
"""
import json
import os
import tempfile
import unittest
from collections.abc import Callable
from typing import Any

from given import PROGRAM, example, text_of, with_program
from colregs.errors import Fault
from colregs.io import forms, jsons, packing, receivers, sentences, sieve, tables, tag_blocks
from colregs.io.sources import Gathered, gather
from colregs.model.formulas import sight_of
from colregs.model.reports import Case
from colregs.model.rows import read_rows
from colregs.pilot.areas import read_areas
from colregs.pilot.route import read_route
from colregs.pilot.scenario import PilotScenario
from colregs.run.program import Run
from colregs.shares.jobs import read_jobs
import passing
import test_tables
import test_times

try:
    from hypothesis import HealthCheck, given, settings
    from hypothesis import strategies as some
except ImportError:
    raise unittest.SkipTest("python3-hypothesis is not installed") from None

FEW = settings(max_examples=int(os.environ.get("COLREGS_EXAMPLES", "60")), derandomize=True, deadline=None,
               database=None, suppress_health_check=list(HealthCheck))
KNOWN = [
    line.encode() for line in (*test_times.FORMS, *test_times.UNSURE, *test_tables.CADASTRE.splitlines(),
                               *test_tables.DMA.splitlines(), "$GPRMC,221321,A,4815.0,N,12334.9,W,14,90,141123,,,A*7D",
                               "$GPZDA,221321.00,14,11,2023,00,00*6A", "# a comment", "",
                               '{"class":"TPV","mode":3,"time":"2023-11-14T22:13:21Z","lat":48.0,"lon":-123.0}')
]
CHANGE = some.tuples(
    some.integers(0, 200),
    some.one_of(some.just(b""), some.binary(min_size=1, max_size=3),
                some.sampled_from([b"!", b"\\", b"*", b",", b"{"])))


def changed(line: bytes, changes: list[tuple[int, bytes]]) -> bytes:
    """Returns a line with bytes replaced."""
    for at, more in changes:
        at = at % (len(line) + 1)
        line = line[:at] + more + line[at + 1:]
    return line


LINES = some.lists(
    some.one_of(some.binary(max_size=80), some.builds(changed, some.sampled_from(KNOWN),
                                                      some.lists(CHANGE, max_size=3))), max_size=12)
JSON = some.recursive(
    some.one_of(some.none(), some.booleans(), some.integers(), some.floats(), some.text(max_size=8)),
    lambda inner: some.one_of(
        some.lists(inner, max_size=4),
        some.dictionaries(
            some.sampled_from([
                "class", "device", "mmsi", "type", "lat", "lon", "speed", "course", "heading", "status", "to_bow",
                "shipname", "shiptype", "time", "rxuxtime", "updates", "values", "path", "value", "context", "msgs",
                "mode", "second", "scaled", "nmea"
            ]), inner, max_size=8)), max_leaves=20)
REPORT = json.dumps(
    {"class": "AIS", "type": 1, "mmsi": 200000301, "lat": 1.0, "lon": 2.0, "speed": 3.0, "course": 4.0, "heading": 5})
ROWS = [
    "point,200000011,1700000001,-60868486,0,140,900", "meeting,200000011,200000012,crossing_gives,8,40,12166201",
    "meeting,200000011,200000012,crossing_gives,8,40,12166201,cut", "verdict,200000013,200000014,r15,broken,50,50",
    "alarm,200000013,200000014,r16,10,22,", 'vessel,200000011,"ELM, \"\"",70,120,76,75', "total,r15,308,307,1,0,1",
    "plan,80,0,600,140,18,54", "none,100,,,,,", "why,0.1,477553000,domain,18,1,1", "lines,point,304,,,,",
]
PILOT = PilotScenario.read(example("pilot.toml"))


def changed_row(row: str, at: int, text: str) -> str:
    """Returns a row with another field at a place."""
    fields = row.split(",")
    return ",".join([*fields[:at], text, *fields[at + 1:]])


class Properties(unittest.TestCase):
    def gathered(self, log: bytes, **more: Any) -> tuple[Gathered, bytes]:
        """Returns the result of reading a log, and the log that was made."""
        with tempfile.TemporaryDirectory() as folder:
            path, out = os.path.join(folder, "log"), os.path.join(folder, "out")
            with open(path, "wb") as made:
                made.write(log)
            found = gather([path], out, **more)
            with open(out, "rb") as source:
                return found, source.read()

    def only(self, faults: type[Exception] | tuple[type[Exception], ...], call: Callable[[], object]) -> None:
        """Checks that a call ends with a value, or with one of these faults and a message."""
        try:
            call()
        except faults as fault:
            self.assertTrue(str(fault))

    @FEW
    @given(LINES, some.sampled_from([None, 200000031]))
    def test_every_line_is_counted(self, lines: list[bytes], mmsi: int | None) -> None:
        log = b"\n".join(lines)
        try:
            found, _ = self.gathered(log, mmsi=mmsi)
        except Fault as fault:
            self.assertTrue(str(fault))
            return
        unread = sum(unread.count for unread in found.unread.values())
        counted = sum(found.forms.values()) + sum(found.aside.values()) + unread
        self.assertGreaterEqual(counted, found.lines())
        if not any(line.count(b"!") > 1 or b"{" in line or b"[" in line for line in log.splitlines()):
            self.assertEqual(counted, found.lines())

    @FEW
    @given(LINES)
    def test_the_output_of_tagged_is_read_unchanged(self, lines: list[bytes]) -> None:
        try:
            found, made = self.gathered(b"\n".join(lines))
        except Fault:
            return
        if found.sentences:
            again, same = self.gathered(made)
            self.assertEqual((same, again.sentences, again.unread), (made, found.sentences, {}))
            self.assertTrue(all(tag_blocks.stamp(line) is not None for line in made.splitlines()))

    @with_program
    @FEW
    @given(LINES)
    def test_the_program_counts_every_line_that_tagged_writes(self, lines: list[bytes]) -> None:
        try:
            _, made = self.gathered(b"\n".join(lines))
        except Fault:
            return
        with tempfile.TemporaryDirectory() as folder:
            for name, words in (("s.toml", passing.SCENARIO.encode()), ("log", made)):
                with open(os.path.join(folder, name), "wb") as out:
                    out.write(words)
            run = Run(PROGRAM, "points", os.path.join(folder, "s.toml"), os.path.join(folder, "log"))
        self.assertEqual((run.status, sum(run.counts().values())), (0, made.count(b"\n")))

    @FEW
    @given(some.one_of(some.binary(max_size=120),
                       some.builds(changed, some.sampled_from(KNOWN), some.lists(CHANGE, max_size=4))))
    def test_a_line_is_read_or_refused_by_each_reader(self, line: bytes) -> None:
        times = forms.Times()
        self.only(forms.Unsure, lambda: times.read(line))
        self.only(forms.Unsure, lambda: times.read(line, True))
        self.only(forms.Unsure, lambda: tag_blocks.blocks(line))
        readers: tuple[Callable[[bytes], object],
                       ...] = (tag_blocks.stamp, sentences.lone_message, sentences.ship_place, receivers.base_time,
                               sieve.Senders().of, tables.table_of)
        for reader in readers:
            reader(line)
        receiver = receivers.Receiver(200000031)
        for each in (line, KNOWN[-5], line):
            receiver.take(each)
        table = tables.table_of(test_tables.CADASTRE.splitlines()[0].encode())
        assert table is not None
        row = table.row
        self.only(tables.RowFault, lambda: row(line, times))

    @FEW
    @given(JSON, some.dictionaries(some.sampled_from(sorted(json.loads(REPORT))), JSON, max_size=3))
    def test_any_json_is_searched_for_sentences(self, value: Any, other: dict[str, Any]) -> None:
        reader = jsons.Objects(forms.Times())
        for held in [*jsons.objects(value), json.loads(REPORT) | other]:
            self.assertIsInstance(reader.read(held).form, str)

    @FEW
    @given(some.binary(max_size=60),
           some.sampled_from([magic for magic, _ in packing.MAGIC] + [b"", b"\xff\xfe", b"\xfe\xff"]))
    def test_a_file_is_decompressed_or_refused(self, rest: bytes, magic: bytes) -> None:
        self.only(Fault, lambda: self.gathered(magic + rest))

    @FEW
    @given(some.text(max_size=200), some.text(max_size=200))
    def test_a_report_a_scenario_and_a_list_of_jobs_are_read_or_refused(self, one: str, two: str) -> None:
        with tempfile.TemporaryDirectory() as folder:
            good, bad = os.path.join(folder, "good.toml"), os.path.join(folder, "bad.toml")
            for path, text in ((good, passing.SCENARIO), (bad, one)):
                with open(path, "w", encoding="utf-8", errors="surrogateescape", newline="") as out:
                    out.write(text.encode("utf-8", "replace").decode())
            self.only(Fault, lambda: Case(good, one, two))
            self.only(Fault, lambda: Case(good, "point,200000301," + one, "meeting," + two))
            self.only(Fault, lambda: Case(bad, one))
            self.only(Fault, lambda: read_jobs(bad))
            self.assertTrue(text_of(good))

    @FEW
    @given(some.lists(some.one_of(
        some.text(max_size=40),
        some.builds(changed_row, some.sampled_from(ROWS), some.integers(0, 7), some.text(max_size=6))), max_size=8))
    def test_rows_are_read_each_or_refused_by_the_number_of_their_line(self, rows: list[str]) -> None:
        try:
            self.assertLessEqual(len(read_rows("\n".join(rows))), len(rows))
        except Fault as fault:
            self.assertRegex(str(fault), r"^the report, line \d+: ")

    @FEW
    @given(some.text(max_size=60), some.lists(some.lists(some.one_of(some.floats(), some.text(max_size=6)), max_size=4),
                                              max_size=4), JSON)
    def test_formulas_routes_and_areas_are_read_or_refused(self, text: str, places: list[list[Any]], tree: Any) -> None:
        self.only(Fault, lambda: sight_of(text))
        route = "latitude,longitude,speed\n" + "\n".join(",".join(map(str, place)) for place in places)
        areas = [{"type": "Polygon", "coordinates": shape} for shape in (tree, places)]
        with tempfile.TemporaryDirectory() as folder:
            path = os.path.join(folder, "read")
            for content in (text, route, json.dumps(tree), *map(json.dumps, areas)):
                with open(path, "wb") as out:
                    out.write(content.encode("utf-8", "replace"))
                self.only(Fault, lambda: read_route(path, 0, 0, 12.0))
                self.only(Fault, lambda: read_areas(path, PILOT))


if __name__ == "__main__":
    unittest.main()
