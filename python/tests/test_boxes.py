"""Boxes of the blocks of files, by which a plan finds who comes near a tile."""
import contextlib
import io
import json
import os
import random
import subprocess
import unittest
import unittest.mock

import drawn_logs
from given import InFolder, PROGRAM, with_program
from colregs.io import sentences
from colregs.model.scenario import Scenario
from colregs.shares import index, places, plans, spans
from colregs.shares.boxes import BoxPoints, Part, parts_of_stored, read_parts, reports_in, stored_form

NUMBERS = (100, 103, 106, 108, 109, 115, 117, 124)      # drawn logs of several themes without messages in parts
AT = (-5 * 600000, 7 * 600000)                          # latitude and longitude of a report in 1/10000 minute
MMSI = 200000001


def block(lines: bytes) -> list[spans.Block]:
    """Returns lines as one block."""
    return [spans.Block(len(lines), True, 0, 0, 0)]


class Reports(unittest.TestCase):
    def test_each_kind_of_position_report_has_its_place(self) -> None:
        report = (*AT, 10, 20, 30, 40)
        long_range = [(27, 6), (0, 2), (MMSI, 30), (0, 6), (AT[1] // 1000, 18), (AT[0] // 1000, 17), (0, 17)]
        class_b = sentences.class_b(MMSI, report)
        extended = [(19, 6), *class_b[1:], (0, 144)]
        for fields in (sentences.class_a(MMSI, report), class_b, extended, long_range):
            lines = b"\n".join(sentences.sentences(fields, 1)) + b"\n"
            self.assertEqual([tuple(one) for one in reports_in(lines)], [(MMSI, AT[1], AT[0])], lines)

    def test_what_is_no_place_of_a_ship_has_no_box(self) -> None:
        nowhere = (sentences.NO_LATITUDE, sentences.NO_LONGITUDE, 0, 0, 0, 0)
        for fields in (sentences.class_a(MMSI, nowhere), sentences.class_a(111000001, (*AT, 0, 0, 0, 0)),
                       sentences.name_part(MMSI, "NAME")):
            self.assertEqual(list(reports_in(sentences.sentence(fields))), [])


class Stored(InFolder):
    def test_a_file_with_a_short_first_part_has_no_boxes(self) -> None:
        fields = sentences.class_a(MMSI, (*AT, 10, 20, 30, 40))
        for letters, found in ((18, None), (24, [MMSI])):
            payload, fill = sentences.payload_of(fields)
            text = sentences.part(payload[:letters], 0, count=2) + b"\n"
            span = spans.Span(self.write("log", text), "sum", blocks=block(text))
            parts = read_parts(span)
            self.assertEqual(None if parts is None else sorted(parts[0].boxes), found)
            self.assertEqual(parts_of_stored(stored_form(parts, [1, 2]), [1, 2]), (True, parts))

    def test_a_stored_form_of_another_state_or_a_damaged_one_is_not_used(self) -> None:
        form = stored_form([Part(True, 1, 2, 2, {MMSI: [-1, -2, 3, 4]})], [1, 2])
        self.assertEqual(parts_of_stored(form, [1, 2]), (True, [Part(True, 1, 2, 2, {MMSI: [-1, -2, 3, 4]})]))
        for stored, state in ((form, [1, 3]), (form[:-4], [1, 2]), (form[:-3], [1, 2]), (b"", [1, 2]), (b"{}", [1, 2])):
            self.assertEqual(parts_of_stored(stored, state), (False, None))

    def test_a_way_between_two_blocks_is_of_the_later_one(self) -> None:
        scenario = Scenario(self.write("s.toml", drawn_logs.scenario_text(100)))
        begin, east = drawn_logs.START, round(10000 * drawn_logs.METRE)
        parts = [Part(True, begin, begin + 60, begin + 60, {MMSI: [0, 0, 0, 0]}),
                 Part(True, begin + 90, begin + 150, begin + 150, {MMSI: [east, 0, east, 0]}),
                 Part(True, begin + 5000, begin + 5060, begin + 5060, {MMSI: [5 * east, 0, 5 * east, 0]})]
        points = BoxPoints([parts[:1], parts[1:]], scenario, (begin - 200, begin + 6000), begin + 6000)
        for after, west, near in ((100, 4000.0, True), (5030, 4000.0, False), (5030, 49000.0, True)):
            tile: places.Tile = [west, None, west + 3000, None]
            at = begin + after, begin + after
            self.assertEqual(points.near([MMSI], tile, at, 0), [MMSI] if near else [], (after, west))


@with_program
class Near(InFolder):
    def planned(self, number: int) -> plans.Plan:
        made = drawn_logs.drawn(number)
        scenario = Scenario(self.write(f"s{number}.toml", made.text))
        folder = self.path(str(number))
        os.mkdir(folder)
        with unittest.mock.patch.object(spans, "PIECE", 2000):
            files = drawn_logs.write_files(made, folder, number)
            return plans.laid_out(files, plans.Wanted(tiles=(2, 2)), scenario)

    def test_whoever_the_program_sees_near_a_tile_is_near_by_the_boxes(self) -> None:
        draw, compared = random.Random(1), 0
        for number in NUMBERS:
            with contextlib.redirect_stderr(io.StringIO()):
                made = self.planned(number)
                by_boxes = plans.box_points(made, 0)
            if by_boxes is None:
                continue
            ways = self.ways(made)
            for _ in range(30):
                _, at, x, y = draw.choice(ways)
                tile, lines = (x - draw.uniform(0, 50), y, x + 50, y + draw.uniform(0, 3000)), (at - 20, at + 5)
                near = {mmsi for mmsi, second, east, north in ways if lines[0] <= second <= lines[1]
                        and tile[0] - 50 <= east <= tile[2] + 50 and tile[1] - 50 <= north <= tile[3] + 50}
                found = by_boxes.near(by_boxes.within(*lines), list(tile), lines, 50)
                self.assertLessEqual(near, set(found), (number, tile, lines))
                compared += len(near)
        self.assertGreaterEqual(compared, 30 * len(NUMBERS) // 2)

    def ways(self, made: plans.Plan) -> list[tuple[int, int, float, float]]:
        """Returns where vessels are every ten seconds, by the legs between the points of the program."""
        log = b"".join(drawn_logs.read_lines([span.path for span in made.spans]))
        done = subprocess.run([PROGRAM, "points", made.scenario.path, f"--ticks={made.ticks}"], input=log,
                              capture_output=True)
        found, before = [], dict[int, tuple[int, float, float]]()
        for row in done.stdout.decode().splitlines():
            if row.startswith("point,"):
                mmsi, at, x, y = map(int, row.split(",")[1:5])
                here = at, x / 10000, y / 10000
                last = before.get(mmsi, here)
                last, before[mmsi] = (last if at - last[0] <= made.scenario.gap else here), here
                for second in range(last[0], at + 1, 10):
                    part = (second - last[0]) / max(1, at - last[0])
                    east, north = (one + part * (other - one) for one, other in zip(last[1:], here[1:]))
                    found.append((mmsi, second, east, north))
        return found

    def test_the_next_plan_reads_the_boxes_and_no_file(self) -> None:
        made = drawn_logs.drawn(108)
        self.write("s.toml", made.text)
        self.write("log", b"".join(line + b"\n" for _, line in made.lines))
        wanted, scenario = plans.Wanted(tiles=(2, 1)), Scenario(self.path("s.toml"))
        first = list(plans.plan([self.path("log")], wanted, scenario, None))
        with unittest.mock.patch.object(index, "read_parts") as reads, unittest.mock.patch.object(index,
                                                                                                  "read_span") as span:
            self.assertEqual(json.dumps(list(plans.plan([self.path("log")], wanted, scenario, None))),
                             json.dumps(first))
        self.assertEqual((reads.call_count, span.call_count), (0, 0))
        self.assertGreater(len({tuple(job["vessels"]) for job in first}), 1)
        with open(self.path("log"), "ab") as out:
            out.write(drawn_logs.stamped(5, sentences.sentence(sentences.class_a(799999999, (0,) * 6))) + b"\n")
        again = list(plans.plan([self.path("log")], wanted, scenario, None))
        self.assertTrue(any(799999999 in job["vessels"] for job in again))
