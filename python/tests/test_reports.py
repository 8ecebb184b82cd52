"""The reader of reports knows its window, refuses a report that does not fit, and finds vessels at rest."""
import unittest

import passing
from given import InFolder, PROGRAM, with_program
from colregs.model import rest
from colregs.errors import Fault
from colregs.model.reports import Case
from colregs.model.tracks import NONE, Track
from colregs.run.program import report_of, window_options


@with_program
class Windows(InFolder):
    def setUp(self) -> None:
        super().setUp()
        self.scenario, self.log = self.write("s.toml", passing.SCENARIO), self.write("log", passing.log())

    def texts(self, start: int | None = None, ticks: int | None = None) -> tuple[str, str]:
        options = window_options(start, ticks)
        points, audit = (report_of(PROGRAM, mode, self.scenario, self.log, options=options)
                         for mode in ("points", "audit"))
        return points, audit

    def refused(self, words: str, points: str, audit: str, start: int | None = None, ticks: int | None = None) -> None:
        with self.assertRaisesRegex(Fault, words):
            Case(self.scenario, points, audit, start, ticks)

    def test_the_nearest_moment_is_the_same_in_a_window_that_begins_later(self) -> None:
        for window in ((None, None), (passing.START + 100, 80)):
            case = Case(self.scenario, *self.texts(*window), *window)
            seconds, one, two = case.nearest(case.meetings[0])
            self.assertAlmostEqual(case.start + seconds, passing.NEAREST, delta=0.01)
            self.assertAlmostEqual(two[1] - one[1] if one[1] < two[1] else one[1] - two[1], passing.LEAST, places=3)

    def test_a_report_of_another_window_is_refused(self) -> None:
        later = self.texts(passing.START + 100, 80)
        self.refused("give the run's --start and --ticks", *later)
        self.refused("outside the window", *self.texts(None, None), passing.START + 600, 40)
        self.refused("the window has 20", self.texts(None, 20)[0], self.texts()[1], None, 20)
        self.refused("no row", "", self.texts()[1])

    def test_a_meeting_that_the_points_do_not_show_is_refused(self) -> None:
        points, audit = self.texts()
        self.refused("does not fit the points", points, audit.replace(",1852000\n", ",1862000\n"))

    def test_an_incomplete_report_is_refused(self) -> None:
        points, audit = self.texts()
        for end in range(0, len(audit) - 1, 97):
            with self.assertRaises(Fault):
                Case(self.scenario, points, audit[:end])
        self.refused("none is|one of `audit`", points, points)

    def test_points_and_audit_of_two_logs_are_refused(self) -> None:
        points = self.texts()[0]
        self.log = self.write("log", passing.log() + "a line more\n")
        self.refused("two runs: 0 and 1 lines are `other`", points, self.texts()[1])


def track(*reports: tuple[int, float, int]) -> Track:
    """Returns a track of reports of (seconds, metres to the east, 1/10 knot)."""
    made = Track()
    for second, x, speed in reports:
        made.times.append(second)
        made.xs.append(x)
        made.ys.append(0)
        made.speeds.append(speed)
        made.courses.append(NONE)
    return made


class AtRest(unittest.TestCase):
    def test_half_a_knot_is_not_at_rest(self) -> None:
        self.assertTrue(rest.at_rest(track((0, 0, 4), (60, 0, 4)), 0, 60))
        self.assertFalse(rest.at_rest(track((0, 0, 4), (60, 0, 5)), 0, 60))

    def test_only_the_stretch_counts(self) -> None:
        moving_before = track((0, 0, 80), (100, 400, 1), (200, 400, 1), (300, 400, 80))
        self.assertTrue(rest.at_rest(moving_before, 100, 250))
        self.assertFalse(rest.at_rest(moving_before, 50, 250))

    def test_without_a_speed_the_way_counts(self) -> None:
        # half a knot is 15.43 m per minute
        self.assertTrue(rest.at_rest(track((0, 0, NONE), (60, 15.4, NONE), (120, 15.4, 0)), 0, 59))
        self.assertFalse(rest.at_rest(track((0, 0, NONE), (60, 15.5, NONE), (120, 15.5, 0)), 0, 59))

    @with_program
    def test_rows_of_a_vessel_at_rest_are_marked_and_stay(self) -> None:
        folder = InFolder()
        folder.setUp()
        self.addCleanup(folder.doCleanups)
        scenario, log = folder.write("s.toml", passing.SCENARIO), folder.write("log", passing.log(still=True))
        case = Case(scenario, report_of(PROGRAM, "points", scenario, log), report_of(PROGRAM, "audit", scenario, log))
        marks = {row.pair: case.rest(row) for row in case.meetings}
        self.assertEqual(marks[passing.STILL, passing.EAST], "subject")
        self.assertEqual(marks[passing.EAST, passing.STILL], "other")
        self.assertEqual(marks[passing.EAST, passing.WEST], "")


if __name__ == "__main__":
    unittest.main()
