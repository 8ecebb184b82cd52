"""A case is audited whole: shares give the rows of one run, long windows and many vessels are not cut, and omissions
are reported."""
import json
import os
import sqlite3
import unittest
from unittest import mock

import crowd
import passing
import strait
from given import InFolder, PROGRAM, example, text_of, with_program
from colregs.case import audit, pairs
from colregs.io.sentences import block, class_a, sentence
from colregs.model.reports import Case
from colregs.model.scenario import Scenario
from colregs.run.program import report_of

TICKS_OF_THREE_DAYS = 25000         # of 10 s


def rows(report: str) -> list[str]:
    """Returns the rows of a report without its totals, which shares do not have."""
    return [row for row in report.splitlines() if not row.startswith("total")]


@with_program
class Shares(InFolder):
    def harbour(self) -> tuple[audit.Place, Case, str]:
        """Returns the harbour of twenty as a case, and the report of one run."""
        scenario, log = self.write("scenario.toml",
                                   crowd.harbour()), self.write("case.log", text_of(example("harbour_of_twenty.log")))
        place = audit.Place(self.folder, "case.log", "scenario.toml", PROGRAM, None, None, 2)
        return place, Case(scenario, report_of(PROGRAM, "points", scenario,
                                               log)), report_of(PROGRAM, "audit", scenario, log)

    def test_shares_give_the_rows_of_one_run(self) -> None:
        place, case, whole = self.harbour()
        near, scenario = pairs.near_pairs(case, 20000), Scenario(place.path("scenario.toml"))
        for room in (1000, 40):
            with self.subTest(room), mock.patch.object(pairs, "ROOM", room):
                found = audit.by_shares(place, case, scenario, audit.Wanted(sorted(case.tracks)), near)
                self.assertEqual(rows(found.text), rows(whole))
                self.assertEqual(found.shares > 1, room == 40)

    def test_tiles_give_the_rows_of_one_run(self) -> None:
        """A run allows 4096 vessels; here 18 of twenty are too many."""
        place, case, whole = self.harbour()
        near, scenario = pairs.near_pairs(case, 20000), Scenario(place.path("scenario.toml"))
        with mock.patch.object(audit, "MOST_VESSELS", 18):
            found = audit.by_shares(place, case, scenario, audit.Wanted(), near)
        kinds = ("meeting", "verdict", "vessel")
        self.assertEqual([row for row in rows(found.text) if row.startswith(kinds)],
                         [row for row in rows(whole) if row.startswith(kinds)])
        self.assertGreaterEqual(found.shares, 4)

    def test_groups_hold_every_subject_once(self) -> None:
        _, case, _ = self.harbour()
        near = {(one, other) for one in case.tracks for other in case.tracks if one < other}
        found = pairs.groups(case, case.tracks, near)
        self.assertEqual(sorted(mmsi for group in found for mmsi in group), sorted(case.tracks))

    def test_pairs_beyond_one_run_are_audited_and_nothing_is_cut(self) -> None:
        """200 vessels on a square of 14 km: most of the 19900 pairs are in contact."""
        self.write("crowd.toml", crowd.SCENARIO)
        self.write("crowd.log", crowd.log(200, 14000))
        status, said, error = self.tool("colregs-case", "crowd.log", "--scenario", "crowd.toml", "--program", PROGRAM,
                                        "-o", "made", "--jobs", "2")
        self.assertEqual(status, 0, error)
        self.assertRegex(said, r"The audit was made by \d+ runs over shares of the pairs")
        self.assertNotIn("Less was audited", said)
        about = json.loads(text_of(self.path("made/case.json")))
        self.assertEqual(set(os.listdir(self.path("made"))), {"case.json", *about["files"]})
        status, again, error = self.tool("colregs-many", "made/shares.jobs", "--program", PROGRAM, "--jobs", "2")
        self.assertEqual(status, 0, error)
        status, joined, error = self.tool("colregs-many", "join", "made/shares.jobs", "--program", PROGRAM)
        self.assertEqual(joined, text_of(self.path("made/report.csv")))
        for command in (["colregs-geojson", "made"], ["draw", "made", "picture"]):
            self.assertEqual(self.tool(*command)[0], 0)


@with_program
class Long(InFolder):
    def test_a_window_longer_than_a_run_is_audited_in_windows(self) -> None:
        """The two of `passing.py` meet again two and a half days later."""
        shift = 220000
        early = passing.log().splitlines(keepends=True)
        quiet = [(block(passing.START + second) + sentence(class_a(passing.EAST,
                                                                   (600000, 600000, 0, 0, 511, 0))) + b"\n").decode()
                 for second in range(3000, shift - 2000, 3000)]
        self.write("long.log", "".join([*early, *quiet, *crowd.moved(early, shift)]))
        self.write("s.toml", passing.SCENARIO)
        status, said, error = self.tool("colregs-case", "long.log", "--scenario", "s.toml", "--program", PROGRAM, "-o",
                                        "made", "--start", str(passing.START), "--ticks", str(TICKS_OF_THREE_DAYS))
        self.assertEqual(status, 0, error)
        with sqlite3.connect(self.path("made/case.db")) as base:
            found = base.execute("select begins, round(least, 1) from meeting where subject = ? and other = ? order by "
                                 "first",
                                 (passing.EAST, passing.WEST)).fetchall()
        base.close()
        self.assertEqual([least for _, least in found], [passing.LEAST] * 2)
        with open(self.path("made/case.json"), encoding="utf-8") as source:
            about = json.load(source)
        self.assertEqual(about["window"]["ticks"], TICKS_OF_THREE_DAYS)
        self.assertNotIn("Less was audited", said)


@with_program
class LeftOut(strait.InStrait):
    def meetings(self, out: str) -> set[tuple[int, int]]:
        base = sqlite3.connect(self.path(out + "/case.db"))
        self.addCleanup(base.close)
        return set(base.execute("select subject, other from meeting where subject < other").fetchall())

    def test_pairs_at_rest_are_left_out_and_counted_without_all(self) -> None:
        """Twelve moored vessels within 2 km: 66 pairs. All others make way."""
        said = self.make("made")
        self.assertIn("Left out: 66 pairs of the 12 vessels that never make half a knot in the window", said)
        every = self.make("every", "--all")
        self.assertNotIn("Left out", every)
        moored = {(one, other)
                  for one, other in self.meetings("every")
                  if one in strait.MOORED and other in strait.MOORED}
        self.assertTrue(moored)
        self.assertEqual(self.meetings("every") - moored, self.meetings("made"))

    def test_a_second_case_reuses_the_log_of_the_first(self) -> None:
        self.make("first")
        self.write("strait.toml", strait.SCENARIO.replace("safe = 500", "safe = 100"))
        os.remove(self.path("strait.log"))
        said = self.make("second", logs="first")
        self.assertIn("Read: 1 file with", said)
        with open(self.path("first/case.json"), encoding="utf-8") as one, open(
            self.path("second/case.json"), encoding="utf-8"
        ) as other:
            first, second = json.load(one), json.load(other)
        self.assertEqual((first["given"], first["files"]["case.log"]), (second["given"], second["files"]["case.log"]))
        with open(self.path("first/case.log"), "ab") as log:
            log.write(b"more\n")
        status, _, error = self.tool("colregs-case", "first", "--scenario", "strait.toml", "--program", PROGRAM, "-o",
                                     "third")
        self.assertEqual(status, 1)
        self.assertIn("first/case.log is not the log of this case any more", error)


if __name__ == "__main__":
    unittest.main()
