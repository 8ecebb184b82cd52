"""Reports in Python, from the library and from the program."""
import ctypes
import ctypes.util
import importlib.util
import os
import unittest
from pathlib import Path
from typing import Any
from unittest import mock

from given import PROGRAM, InFolder, example, with_program

import colregs
from colregs import library
from colregs.errors import Fault

CASES = ("crossing", "giving_way", "head_on", "overtaking", "harbour_of_twenty")
# Options that each reach another number of the call.
OPTIONS: tuple[dict[str, Any], ...] = (
    {}, {"start": 1700000100}, {"ticks": 12}, {"seed": 7, "ticks": 30}, {"why": True})


def library_here() -> str | None:
    """The library that the tests use: the one that COLREGS_LIBRARY names, or that of this clone."""
    named = os.environ.get(library.VARIABLE) or library.BUILT
    return named if os.path.exists(named) else None


def scenario_of(case: str) -> Path:
    return Path(example(case + ".toml"))


def log_of(case: str) -> Path:
    return Path(example(case + ".log"))


def by_library(mode: str, scenario: library.Content, log: library.Content, **options: Any) -> colregs.Report:
    with mock.patch.dict(os.environ, {library.VARIABLE: library_here() or ""}):
        return colregs.report(mode, scenario, log, **options)


def by_program(mode: str, scenario: library.Content, log: library.Content, **options: Any) -> colregs.Report:
    return colregs.report(mode, scenario, log, program=PROGRAM, **options)


with_library = unittest.skipUnless(library_here(), "the library is not built")


@with_program
@with_library
class LibraryAndProgram(unittest.TestCase):
    def same(self, mode: str, scenario: library.Content, log: library.Content, **options: Any) -> colregs.Report:
        ours, theirs = (by(mode, scenario, log, whole=False, **options) for by in (by_library, by_program))
        self.assertEqual((ours.source, theirs.source), ("library", "program"))
        self.assertEqual((ours.status, ours.text, ours.fault), (theirs.status, theirs.text, theirs.fault))
        return ours

    def test_each_mode_gives_the_same_on_each_example(self) -> None:
        for case in CASES:
            for mode in library.MODES:
                with self.subTest(case=case, mode=mode):
                    self.same(mode, scenario_of(case), log_of(case), **({"ticks": 20} if mode == "drill" else {}))

    def test_each_option_gives_the_same(self) -> None:
        for options in OPTIONS:
            for mode in ("points", "plan", "drill"):
                with self.subTest(mode=mode, options=options):
                    self.same(mode, scenario_of("giving_way"), log_of("giving_way"),
                              **{**({"ticks": 20} if mode == "drill" else {}), **options})

    def test_rows_of_reasons_are_checked_alike(self) -> None:
        # A domain of 60 km round each target leaves own ship no plan.
        text = scenario_of("giving_way").read_text()
        near = text.replace("range = 8000", "range = 100000").replace("base = 300", "base = 60000")
        why = self.same("plan", near, log_of("giving_way"), why=True)
        self.assertEqual(why.status, 1, why.fault)
        self.assertTrue(why.reasons)
        self.assertEqual(self.same("recheck", near, log_of("giving_way"), rows=why.text).status, 0)
        self.assertEqual(self.same("recheck", near, log_of("giving_way"), rows=b"why,0,1,domain,1,1,1\n").status, 10)

    def test_hostile_bytes_give_the_same_end_as_the_program(self) -> None:
        for scenario in (b"", b"\xff\x00", b"version = 1", b" " * (1 << 21)):
            for log in (b"", b"\n" * 5000, bytes(range(256)) * 40):
                with self.subTest(scenario=scenario[:12], log=log[:12]):
                    self.assertIn(self.same("audit", scenario, log).status, (3, 7))

    def test_a_report_larger_than_the_first_buffer_is_complete(self) -> None:
        report = self.same("points", scenario_of("harbour_of_twenty"), log_of("harbour_of_twenty"))
        self.assertGreater(len(report.text), 1 << 16)


@with_program
class TypedRows(unittest.TestCase):
    def test_rows_have_the_values_that_rows_md_shows(self) -> None:
        points = by_program("points", scenario_of("crossing"), log_of("crossing"))
        self.assertEqual(points.points[0], colregs.Point(200000011, 1700000001, -60868486, 0, 140, 900))
        self.assertEqual(points.lines["point"], 304)
        audit = by_program("audit", scenario_of("crossing"), log_of("crossing"))
        self.assertIn(colregs.Meeting(200000011, 200000012, "crossing_gives", 8, 40, 12166201), audit.meetings)
        self.assertIn(colregs.Verdict(200000013, 200000014, "r15", "broken", 50, 50), audit.verdicts)
        self.assertIn(colregs.Vessel(200000011, "ELM", 70, 120, 76, 75), audit.vessels)
        self.assertIn(colregs.Total("r15", 308, 307, 1, 0, 1), audit.totals)
        watch = by_program("watch", scenario_of("crossing"), log_of("crossing"))
        self.assertIn(colregs.Alarm(200000013, 200000014, "r16", 10, 22), watch.alarms)
        plan = by_program("plan", scenario_of("giving_way"), log_of("giving_way"))
        self.assertEqual(plan.plan[0], colregs.PlanLeg(80, 0, 600, 140, 18, 54))
        self.assertIsNone(plan.failing_plans)

    def test_each_row_of_a_report_is_in_one_list(self) -> None:
        report = by_program("audit", scenario_of("harbour_of_twenty"), log_of("harbour_of_twenty"))
        typed = len(report.meetings) + len(report.verdicts) + len(report.vessels) + len(report.totals)
        self.assertEqual(typed + len(report.lines), len(report.text.splitlines()))

    @unittest.skipUnless(importlib.util.find_spec("pandas"), "pandas is not installed")
    def test_pandas_has_each_row(self) -> None:
        for mode in ("points", "audit", "watch"):
            report = by_program(mode, scenario_of("crossing"), log_of("crossing"))
            frames = report.to_pandas()
            self.assertEqual(list(frames), list(library.TABLES))
            for name, frame in frames.items():
                self.assertEqual(len(frame), len(getattr(report, name)), name)
        alarms = frames["alarms"]
        self.assertEqual(list(alarms.columns), ["subject", "other", "rule", "step", "decided"])
        self.assertIn((200000013, 200000014, "r16", 10, 22), list(alarms.itertuples(index=False, name=None)))

    @unittest.skipIf(importlib.util.find_spec("pandas"), "pandas is installed")
    def test_without_pandas_a_fault_names_it(self) -> None:
        with self.assertRaisesRegex(Fault, "pandas"):
            by_program("audit", scenario_of("crossing"), log_of("crossing")).to_pandas()


@with_program
class WrongUses(InFolder):
    def test_an_incomplete_report_is_a_fault(self) -> None:
        with self.assertRaisesRegex(Fault, "status 3.*version: missing"):
            by_program("plan", b"", b"")
        self.assertEqual(by_program("plan", b"", b"", whole=False).status, 3)

    def test_numbers_out_of_their_ranges_are_refused_and_do_not_wrap(self) -> None:
        for options in ({"start": -1}, {"start": 10**10}, {"ticks": 0}, {"ticks": 20001}, {"seed": -1},
                        {"seed": 10**6}):
            with self.subTest(options=options), self.assertRaises(ValueError):
                by_program("plan", b"", b"", **options)
        with self.assertRaises(ValueError):
            by_program("plans", b"", b"")

    def test_a_file_that_is_missing_is_named(self) -> None:
        with self.assertRaisesRegex(Fault, "missing.toml"):
            by_program("plan", Path(self.path("missing.toml")), b"")

    def test_a_named_file_that_is_not_a_library_is_a_fault(self) -> None:
        other = ctypes.util.find_library("m")
        for named, words in ((self.write("empty.so", b""), "cannot be loaded"), (other, "is not the library colregs")):
            with self.subTest(named=named), mock.patch.dict(
                os.environ, {library.VARIABLE: named}
            ), self.assertRaisesRegex(Fault, words):
                colregs.report("plan", b"", b"")

    def test_a_report_with_a_row_of_another_kind_is_refused(self) -> None:
        report = colregs.Report("audit", 0, b"meeting,1,2,passing,3,4,5\nmeetings,1,2,passing,3,4,5\n", "", "program")
        with self.assertRaisesRegex(Fault, "line 2.*meetings"):
            _ = report.meetings


if __name__ == "__main__":
    unittest.main()
