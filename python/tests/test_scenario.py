"""A suggested scenario: its window, tick and reference computed by hand, its notes on guesses, and that the program
accepts it."""
import os
import tomllib
import unittest
from typing import Any

from given import EXAMPLES, InFolder, PROGRAM, example, with_program
from colregs.io import sentences
from colregs.errors import Fault
from colregs.model.guess import suggested


def report(at: int, mmsi: int, latitude: int, longitude: int, way: int = 100) -> bytes:
    return sentences.block(at) + sentences.sentence(
        sentences.class_a(mmsi, (latitude, longitude, way, 900, 90, at % 60), 0)) + b"\n"


@with_program
class Suggested(InFolder):
    def values(self, log: bytes) -> tuple[dict[str, Any], str]:
        text, reasons = suggested(self.write("log", log), PROGRAM)
        self.program("audit", self.write("s.toml", text), self.path("log"))
        return tomllib.loads(text), " / ".join(reasons)

    def test_window_tick_and_reference_are_those_of_the_log(self) -> None:
        """Two ships each 6 s for 10 minutes; the middle of 0 to 100 by ones is 50."""
        log = b"".join(
            report(1700000000 + 6 * k, mmsi, 600000 + k, 1200000 + k)
            for k in range(101)
            for mmsi in (200000001, 200000002))
        values, reasons = self.values(log)
        self.assertEqual(values["window"], {"start": 1700000000, "tick": 6, "ticks": 100})
        self.assertEqual(values["reference"], {"lat": 600050, "lon": 1200050})
        self.assertIn("202 position reports of 2 vessels", reasons)

    def test_a_ship_that_reports_often_does_not_rule_the_tick(self) -> None:
        """Own ship each second beside three that report each 10 s."""
        often = [(1700000000 + k, 200000031) for k in range(301)]
        log = sorted(often + [(1700000000 + 10 * k, mmsi)
                              for k in range(31)
                              for mmsi in (200000001, 200000002, 200000003)])
        self.assertEqual(
            self.values(b"".join(report(at, mmsi, 600000, 1200000) for at, mmsi in log))[0]["window"]["tick"], 10)

    def test_a_log_over_the_date_line_has_its_reference_there(self) -> None:
        log = b"".join(
            report(1700000000 + 10 * k, 200000001, -600000, (107999800 + 20 * k + 108000000) % 216000000 - 108000000)
            for k in range(21))
        self.assertEqual(self.values(log)[0]["reference"], {"lat": -600000, "lon": -108000000})

    def test_a_clock_that_was_wrong_for_some_lines_moves_no_window(self) -> None:
        log = report(1000000000, 200000003, 600000, 1200000) + b"".join(
            report(1700000000 + 10 * k, 200000001, 600000, 1200000) for k in range(60))
        self.assertEqual(self.values(log)[0]["window"], {"start": 1700000000, "tick": 10, "ticks": 59})

    def test_the_region_with_most_reports_is_used_and_the_rest_reported(self) -> None:
        log = b"".join(
            report(1700000000 + 10 * k, 200000001 + (k % 4 == 0), 600000 + (9000000 if k % 4 == 0 else 0), 1200000)
            for k in range(80))
        values, reasons = self.values(log)
        self.assertEqual(values["reference"]["lat"], 600000)
        self.assertIn("20 reports lie too far from most others", reasons)

    def test_a_log_without_times_says_so(self) -> None:
        values, reasons = self.values(report(0, 200000001, 600000, 1200000).rpartition(b"\\")[2])
        self.assertEqual(values["window"]["ticks"], 1)
        self.assertIn("no tag block has a time", reasons)

    def test_many_vessels_have_a_watch_with_which_the_program_follows_them(self) -> None:
        """A row of 400 ships, each 299 m from the next: within 2000 m they make 4758 ordered pairs, within 1500 m 3970.

        Of ordered pairs k apart in the row there are 2 (400 - k).
        """
        step = round(299 / 1852 * 10000)
        log = b"".join(
            report(at, 200000001 + k, k * step, 1200000) for at in (1700000000, 1700000060) for k in range(400))
        values, reasons = self.values(log)
        self.assertEqual([sum(2 * (400 - k) for k in range(1, 1 + watch // 299)) for watch in (2000, 1500)],
                         [4758, 3970])
        self.assertEqual(values["detect"]["watch"], 1500)
        self.assertIn("the watch is 1500 m instead of 5000", reasons)

    def test_the_window_is_cut_if_no_watch_suffices(self) -> None:
        """65 ships in one place, 4160 pairs; the last one arrives in the second half."""
        log = b"".join(report(1700000000 + 60 * minute, 200000001 + k, 600000, 1200000)
                       for minute in range(21) for k in range(65) if k < 64 or minute > 14)
        values, reasons = self.values(log)
        self.assertEqual((values["window"]["ticks"], values["detect"]["watch"]), (10, 1000))
        self.assertIn("the window is cut to 10 of 20 ticks", reasons)

    def test_a_long_log_begins_the_window_and_is_reported(self) -> None:
        log = b"".join(report(1700000000 + 10000 * k, 200000001, 600000, 1200000 + 5 * k) for k in range(300))
        values, reasons = self.values(log)
        self.assertEqual((values["window"]["start"], values["window"]["ticks"]), (1700000000, 20000))
        self.assertIn("a window may have 20000", reasons)

    def test_a_log_without_reports_ends_with_a_message(self) -> None:
        for log in (b"", b"nothing\n", sentences.sentence(sentences.name_part(200000001, "ELM")) + b"\n"):
            with self.assertRaisesRegex(Fault, "no position report"):
                self.values(log)
        status, out, error = self.tool("scenario", "--program", PROGRAM, "no.log")
        self.assertEqual((status, out, error), (1, "", "scenario: cannot read no.log: no such file or directory\n"))
        status, out, error = self.tool("scenario", "--program", "no_program", example("crossing.log"))
        self.assertEqual((status, out, error), (1, "", "scenario: no_program is not an executable file\n"))

    def test_each_example_log_has_one(self) -> None:
        for name in sorted(os.listdir(EXAMPLES)):
            if name.endswith(".log"):
                with open(example(name), "rb") as source, self.subTest(name):
                    self.assertGreater(self.values(source.read())[0]["window"]["ticks"], 10)


if __name__ == "__main__":
    unittest.main()
