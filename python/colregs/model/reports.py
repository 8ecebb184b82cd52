"""The one reader of reports: a scenario and the reports `points` and `audit` (docs/REPORT.md), and where a vessel is
between her reports.

The window is that of the run: the scenario's, with the run's --start and --ticks, as they are given or as the case.json
beside the scenario has them. A report that is not whole, or that does not fit the window or the other report, is
refused with a Fault.
"""
import csv
import json
import math
import os
from array import array
from typing import Any

from colregs.errors import Fault
from colregs.io.files import read_text
from colregs.model import lost, rest
from colregs.model.rows import FIELDS, METRE, OUTCOMES, Lines, Meeting, Row, Stretch, Total, Verdict, Vessel, row_of
from colregs.model.rules import RULES
from colregs.model.scenario import read_values
from colregs.model.tracks import NONE, AllPlaces, Place, Places, Track, along, least_part

MOST_STEPS = 10 ** 7    # of a case that is audited in several windows; a run takes 20000
NEAR = 0.5              # metres by which a least distance that is computed here may differ from the report's
Moment = tuple[float, Place, Place]     # seconds after the window's start, and the two places


def case_file(folder: str) -> dict[str, Any]:
    """Returns what the case.json of a folder says."""
    path = os.path.join(folder, "case.json")
    try:
        about = json.loads(read_text(path))
        if isinstance(about["window"], dict) and isinstance(about["options"], dict):
            return dict(about)
    except (ValueError, TypeError, KeyError):
        pass
    raise Fault(f"{path}: not the file of a case")


def case_of_scenario(scenario: str) -> dict[str, Any]:
    """Returns what the case.json says in whose folder a scenario lies, or nothing if there is none."""
    folder = os.path.dirname(os.path.abspath(scenario))
    if os.path.basename(scenario) != "scenario.toml" or not os.path.exists(os.path.join(folder, "case.json")):
        return {}
    return case_file(folder)


def split_rows(text: str) -> tuple[list[str], list[tuple[int, list[str]]]]:
    """Returns the points of a report as lines; and its other lines as fields, each with its number."""
    points, others, numbers = [], [], []
    for number, line in enumerate(text.split("\n"), 1):
        line = line[:-1] if line.endswith("\r") else line
        if line.startswith("point,"):
            points.append(line)
        elif line:
            others.append(line)
            numbers.append(number)
    try:
        return points, list(zip(numbers, csv.reader(others)))
    except csv.Error as error:
        raise Fault(f"no report: {error}") from None


class Case:
    """A scenario's window, each vessel's places at its ticks in metres, the meetings and the verdicts of a run."""

    def __init__(self, scenario: str, points: str, audit: str | None = None, start: int | None = None,
                 ticks: int | None = None) -> None:
        self.values = read_values(scenario)
        about = case_of_scenario(scenario)
        if start is None and ticks is None and about:
            start, ticks = about["options"].get("start"), about["options"].get("ticks")
        self.set_window(scenario, start, ticks)
        self.names: dict[int, str] = {}
        self.meetings: list[Meeting] = []
        self.verdicts: list[Verdict] = []
        self.rules: list[str] = []
        self.totals: dict[str, Total] = {}
        self.vessels: dict[int, Vessel] = {}
        self.lines: dict[str, int] = {}
        self.point_lines: dict[str, int] = {}
        self.tracks: dict[int, Track] = {}
        self.joined, self.narrowed, self.shown = bool(about.get("shares")), False, (0, self.steps)
        self.known_rest: dict[tuple[int, int, int], bool] = {}
        self.known_lost: dict[tuple[int, int, int, int], lost.Lost | None] = {}
        self.known_nearest: dict[Meeting, Moment] = {}
        self.take_points(points)
        if audit is not None:
            self.take_all(audit, "the report")
        self.places: AllPlaces | dict[int, Places] = AllPlaces(self.tracks, self.gap, self.tick, self.steps)
        self.check()

    def set_window(self, scenario: str, start: int | None, ticks: int | None) -> None:
        """Takes the window, the gap and the reference from the scenario, with a start and ticks instead of its own if
        they are given."""
        try:
            window = self.values["window"]
            self.start, self.tick, self.steps = (int(value) for value in (window["start"] if start is None else start,
                                                                          window["tick"],
                                                                          window["ticks"] if ticks is None else ticks))
            self.gap = int(self.values["log"]["gap"])
            self.reference = {name: int(self.values["reference"][name]) for name in ("lat", "lon")}
        except (KeyError, TypeError, ValueError, OverflowError) as error:
            raise Fault(f"{scenario}: window, log.gap or reference is missing or is no number: {error}") from None
        for name, value, low, high in (("window.start", self.start, 0, 9999999999), ("window.tick", self.tick, 1, 60),
                                       ("window.ticks", self.steps, 1, MOST_STEPS), ("log.gap", self.gap, 1, 3600),
                                       ("reference.lat", self.reference["lat"], -45000000, 45000000),
                                       ("reference.lon", self.reference["lon"], -108000000, 108000000)):
            if not low <= value <= high:
                raise Fault(f"{scenario}: {name} is not in {low} to {high}")

    def take_points(self, text: str) -> None:
        """Takes the report of `points`."""
        points, others = split_rows(text)
        if not points and not others:
            raise Fault("the points: there is no row in them")
        by_vessel: dict[str, list[str]] = {}
        for line in points:
            by_vessel.setdefault(line[6:line.find(",", 6)], []).append(line)
        for mmsi, lines in by_vessel.items():
            try:
                self.tracks[int(mmsi)] = self.track_of(lines)
            except (ValueError, OverflowError) as error:
                raise Fault(f"the points of {mmsi[:20]}: a row is none of a report: {error}") from None
        for number, row in others:
            if row[0] != "lines" or len(row) != FIELDS or not row[2].isdecimal():
                raise Fault(f"the points, line {number}: `{','.join(row)[:80]}` is no row of `points`")
            self.point_lines[row[1]] = int(row[2])

    def track_of(self, lines: list[str]) -> Track:
        """Returns the track of one vessel's rows, column by column; raises ValueError if one is no row."""
        if any(line.count(",") != FIELDS - 1 for line in lines):
            raise ValueError(f"a row has other than {FIELDS} fields")
        fields = ",".join(lines).split(",")
        times = array("q", [int(time) - self.start for time in fields[2::FIELDS]])
        xs, ys = (array("d", [int(value) / METRE for value in fields[k::FIELDS]]) for k in (3, 4))
        speeds, courses = (array("h", [int(value or NONE) for value in fields[k::FIELDS]]) for k in (5, 6))
        if any(first >= second for first, second in zip(times, times[1:])):
            raise ValueError("they are not in the order of their times")
        return Track(times, xs, ys, speeds, courses)

    def take_all(self, text: str, name: str) -> None:
        """Takes the rows of a report that is called `name` in messages."""
        points, others = split_rows(text)
        if points:
            raise Fault(f"{name}: it is of `points`, and one of `audit` is asked for")
        for number, fields in others:
            try:
                row = row_of(fields)
            except (ValueError, OverflowError):
                raise Fault(f"{name}, line {number}: `{','.join(fields)[:80]}` is no row of a report") from None
            self.take(row)
        if self.joined and not self.totals:
            self.rules.sort(key=lambda rule: (rule not in RULES, list(RULES).index(rule) if rule in RULES else 0))
        if len(self.lines) != OUTCOMES and not self.joined:
            raise Fault(f"{name}: it is not whole: the counts of lines at its end are missing")

    def take_vessel(self, vessel: Vessel) -> None:
        """Takes what is known of a vessel instead of what was known before."""
        self.names[vessel.mmsi], self.vessels[vessel.mmsi] = vessel.name or str(vessel.mmsi), vessel

    def take(self, row: Row) -> None:
        """Takes one row."""
        if isinstance(row, Vessel):
            self.joined |= row.reports is None        # as a join of windows has it
            self.take_vessel(row)
        elif isinstance(row, Total):
            self.rules.append(row.rule)
            self.totals[row.rule] = row
        elif isinstance(row, Lines):
            self.lines[row.outcome] = row.count
        elif isinstance(row, Meeting):
            self.meetings.append(row)
        elif isinstance(row, Verdict):
            self.verdicts.append(row)
            if row.rule not in self.rules and self.joined:
                self.rules.append(row.rule)

    def check(self) -> None:
        """Refuses reports of another window, of another scenario, or of two logs."""
        self.check_times()
        self.check_lines()
        for meeting in self.meetings:
            if not self.fits(meeting):
                raise Fault(f"the meeting of {meeting.subject} and {meeting.other} at steps {meeting.first} to "
                            f"{meeting.last} does not fit the points: "
                            "give the run's --start and --ticks, and its scenario")

    def check_lines(self) -> None:
        """Refuses two reports that count other lines."""
        if self.lines and self.point_lines and self.lines != self.point_lines and not self.joined:
            other = next(name for name in self.lines if self.lines[name] != self.point_lines.get(name))
            raise Fault(f"the points and the report are of two runs: {self.point_lines.get(other, 0)} and "
                        f"{self.lines[other]} lines are `{other}`. "
                        "Both ask for one log, and one --start and --ticks")

    def check_times(self) -> None:
        """Refuses points and rows outside the window."""
        for mmsi, track in self.tracks.items():
            for seconds in (track.times[0], track.times[-1]):
                if not -self.gap <= seconds <= self.steps * self.tick + self.gap:
                    raise Fault(f"a point of {mmsi} at {self.start + seconds} lies outside the window of "
                                f"{self.steps * self.tick} s from {self.start} on: "
                                "give the run's --start and --ticks")
        for row in self.stretches():
            if not 0 <= row.first <= row.last < self.steps:
                raise Fault(f"a row has steps {row.first} to {row.last}, and the window has {self.steps}: give the "
                            "run's --ticks")
            if not all(mmsi in self.tracks for mmsi in row.pair):
                raise Fault(f"a row is of {row.subject} and {row.other}, and the points are not")

    def stretches(self) -> list[Stretch]:
        """Returns the meetings and the verdicts."""
        return [*self.meetings, *self.verdicts]

    def fits(self, meeting: Meeting) -> bool:
        """Returns whether the two are seen at the meeting's steps, and as near as the report says."""
        ticks = slice(meeting.first, meeting.last + 2)
        if any(math.isnan(x) for mmsi in meeting.pair for x in self.places[mmsi].xs[ticks]):
            return False
        _, one, two = self.nearest(meeting)
        return abs(math.dist(one, two) - meeting.metres) <= NEAR

    def extent(self) -> list[Place]:
        """Returns corners of what a picture is to hold."""
        return [corner for places in self.places.values() for corner in places.extent() or ()]

    def name(self, mmsi: int) -> str:
        """Returns the name of a vessel, or her MMSI if the log has no name."""
        return self.names.get(mmsi, str(mmsi))

    def moment(self, step: int) -> int:
        """Returns when a step begins, in seconds since the Unix epoch."""
        return self.start + step * self.tick

    def nearest(self, meeting: Meeting) -> Moment:
        """Returns the moment of least distance in a meeting, in seconds after the start, and both places there;
        straight between ticks."""
        if meeting not in self.known_nearest:
            self.known_nearest[meeting] = self.nearest_moment(meeting)
        return self.known_nearest[meeting]

    def nearest_moment(self, meeting: Meeting) -> Moment:
        """Computes the moment of least distance."""
        first, steps = meeting.first, meeting.last + 1 - meeting.first
        one, two = (self.places[mmsi] for mmsi in meeting.pair)
        ticks = slice(first, first + steps + 1)
        p = list(
            zip((u - x for x, u in zip(one.xs[ticks], two.xs[ticks])),
                (v - y for y, v in zip(one.ys[ticks], two.ys[ticks]))))
        parts = [least_part(a, b) for a, b in zip(p, p[1:])]
        fars = [math.hypot(*along(a, b, part)) for a, b, part in zip(p, p[1:], parts)]
        k = fars.index(min(fars))
        step, part = first + k, parts[k]
        mine, hers = (along(places.at(step), places.at(step + 1), part) for places in (one, two))
        return (step + part) * self.tick, mine, hers

    def rest(self, row: Stretch) -> str:
        """Returns who lies still in a meeting or verdict: `subject`, `other`, `both` or nobody."""
        first, last = row.first * self.tick, (row.last + 1) * self.tick
        return rest.MARKS[self.lies_still(row.subject, first, last), self.lies_still(row.other, first, last)]

    def lies_still(self, mmsi: int, first: int, last: int) -> bool:
        """Returns whether a vessel lies still between two times, in seconds after the window's start."""
        key = mmsi, first, last
        if key not in self.known_rest:
            self.known_rest[key] = mmsi in self.tracks and rest.at_rest(self.tracks[mmsi], first, last)
        return self.known_rest[key]

    def lost(self, row: Stretch) -> lost.Lost | None:
        """Returns how a meeting ends if one of the two is no longer heard, or None if it ends otherwise."""
        key = *row.both, row.first, row.last
        if key not in self.known_lost:
            self.known_lost[key] = lost.lost(self.tracks, row, self.tick, self.steps, self.gap)
        return self.known_lost[key]

    def lost_words(self, meeting: Meeting) -> str:
        """Returns the end of a meeting in words if one of the two is no longer heard, otherwise nothing."""
        found = self.lost(meeting)
        return lost.words(found, meeting.metres, self.start) if found else ""

    def narrow(self, pair: list[int] | None = None, begin: int | None = None, end: int | None = None) -> None:
        """Keeps two vessels alone, and the steps between two moments, in seconds since the Unix epoch."""
        first = 0 if begin is None else (begin - self.start) // self.tick
        last = self.steps if end is None else -(-(end - self.start) // self.tick)
        first, last = max(0, first), min(self.steps, last)
        if first >= last:
            raise Fault("no step of the window lies between the two moments")
        self.shown, self.narrowed = (first, last), True
        if pair:
            self.places = {mmsi: places for mmsi, places in self.places.items() if mmsi in pair}
        for places in self.places.values():
            places.keep_only(first, last)

        def is_shown(row: Stretch) -> bool:
            return row.first < last and row.last >= first and (not pair or set(row.pair) == set(pair))

        self.meetings = [row for row in self.meetings if is_shown(row)]
        self.verdicts = [row for row in self.verdicts if is_shown(row)]

    def shown_moment(self, meeting: Meeting) -> Moment | None:
        """Returns the moment of least distance, or None if the picture does not show the whole meeting."""
        if self.narrowed and any(self.places[mmsi][step] is None
                                 for mmsi in meeting.pair
                                 for step in range(meeting.first, meeting.last + 2)):
            return None
        return self.nearest(meeting)

    def vessel(self, word: str) -> int:
        """Returns the MMSI of a vessel that is named by it or by her name."""
        found = [mmsi for mmsi in self.tracks if word == str(mmsi) or word.casefold() == self.name(mmsi).casefold()]
        if len(found) != 1:
            raise Fault(f"`{word}` is {'the name of several vessels' if found else 'no vessel'} of the points")
        return found[0]
