"""The picture of a plan: the tracks up to now, own ship's planned legs, and the domains of the others along their
predicted motion."""
import math
from collections.abc import Iterable, Sequence
from typing import Any

from colregs.errors import Fault
from colregs.model.reports import Case
from colregs.model.rows import NoPlan, PlanLeg, Row, Vessel
from colregs.model.rules import INK, clock, date
from colregs.model.tracks import NONE, Place, Track, along, least_part, toward
from colregs.page.svg import Coloured, Point
from colregs.page.tracks import QUIET, TRACK, Chart, draw_frame, draw_head, draw_scale, seen_parts

KNOT = 1852 / 36000     # metres per second in 1/10 knot
LEGS = ["#0072b2", "#009e73"]
OTHERS = ["#d55e00", "#7b3294", "#8c564b", "#c79a00", "#cc3d8f", "#01665e"]


def moved(place: Place, course: float, speed: float, seconds: float) -> Place:
    """Returns a vessel's place after a time on a course in 1/10 degree at a speed in 1/10 knot."""
    angle, way = math.radians(course / 10), speed * KNOT * seconds
    return place[0] + way * math.sin(angle), place[1] + way * math.cos(angle)


class Planned(Case):
    """The contents of a plan's picture: places at the ticks up to now, and then those of own ship and each target."""

    def __init__(self, scenario: str, points: str, plan: str, start: int | None = None,
                 ticks: int | None = None) -> None:
        self.lengths: dict[int, int] = {}
        self.legs: list[PlanLeg] = []
        self.refused: int | None = None
        super().__init__(scenario, points, plan, start, ticks)
        if self.refused is None and not self.legs:
            raise Fault("this report does not come from `plan`")
        try:
            self.predict_all(self.values["own"])
        except (KeyError, TypeError, StopIteration) as error:
            raise Fault(f"{scenario}: `own` or `predict` lacks what the plan needs: {error}") from None

    def predict_all(self, own: dict[str, Any]) -> None:
        """Computes the places of own ship and of each target from now on."""
        self.now, self.own = self.start + self.steps * self.tick, own["mmsi"]
        self.targets = [mmsi for mmsi in self.names if mmsi != self.own]
        self.last_tick = own["legs"] * own["leg_ticks"] + own["tail"]
        if not 0 < self.last_tick <= 7200:
            raise Fault(f"own.legs, own.leg_ticks and own.tail add up to {self.last_tick} ticks")
        self.paths = {mmsi: self.predicted(mmsi) for mmsi in self.names}
        if self.legs:
            self.paths[self.own] = self.planned(self.paths[self.own][0])
        self.radii = {mmsi: own["base"] + own["lengths"] * self.lengths[mmsi] for mmsi in self.targets}

    def take(self, row: Row) -> None:
        """Handles one row; this includes the rows of a plan."""
        super().take(row)
        if isinstance(row, Vessel):
            self.lengths[row.mmsi] = row.length
        elif isinstance(row, PlanLeg):
            self.legs.append(row)
        elif isinstance(row, NoPlan):
            self.refused = row.plans

    def check_lines(self) -> None:
        """Checks nothing. A plan reads no line after now and `points` reads one gap more, so their counts may
        differ."""

    def predicted(self, mmsi: int) -> list[Place]:
        """Returns the places at each tick from now on: on the course and speed of the last report, with the changes
        that the scenario predicts."""
        track = self.last_report_of(mmsi)
        time, course, speed = float(self.start + track.times[-1]), float(track.courses[-1]), float(track.speeds[-1])
        if NONE in (course, speed):
            course, speed = 0.0, 0.0
        changes: list[list[int]] = next(
            (entry["changes"] for entry in self.values.get("predict", []) if entry["mmsi"] == mmsi), [])
        parts = [(time, course, speed)] + [(float(self.now + after), float(aim), float(way))
                                           for after, aim, way in changes]
        return [
            self.reached((track.xs[-1], track.ys[-1]), parts, self.now + k * self.tick)
            for k in range(self.last_tick + 1)
        ]

    def last_report_of(self, mmsi: int) -> Track:
        """Returns the track of a vessel of the plan."""
        if mmsi not in self.tracks:
            raise Fault(f"the plan has {mmsi}, but the points do not; give points and plan of the same log")
        return self.tracks[mmsi]

    def reached(self, place: Place, parts: Sequence[tuple[float, float, float]], until: float) -> Place:
        """Returns a vessel's place at a time after parts of (start, course, speed)."""
        for (begin, course, speed), following in zip(parts, [*parts[1:], (until, 0.0, 0.0)]):
            place = moved(place, course, speed, max(0, min(until, following[0]) - begin))
        return place

    def planned(self, place: Place) -> list[Place]:
        """Returns own ship's places from now on. At each tick she turns and changes speed toward the leg's order, and
        then moves."""
        track, own = self.last_report_of(self.own), self.values["own"]
        course, speed, path = float(track.courses[-1]), float(track.speeds[-1]), [place]
        for tick in range(self.steps, self.steps + self.last_tick):
            leg = next(leg for leg in self.legs if leg.first <= tick < leg.last)
            course += toward(0, (leg.course - course + 1800) % 3600 - 1800, own.get("turn_rate", 1800))
            speed = toward(speed, leg.speed, own.get("speed_rate", 1022))
            path.append(moved(path[-1], course, speed, self.tick))
        return path

    def nearest_to(self, mmsi: int) -> tuple[float, float, Place, Place]:
        """Returns the least distance to a target from now on, its time in ticks, and both places. Both move straight
        between ticks."""
        best: tuple[float, float, Place, Place] | None = None
        mine, hers = (zip(self.paths[m], self.paths[m][1:]) for m in (self.own, mmsi))
        for k, ((a, b), (c, d)) in enumerate(zip(mine, hers)):
            part = least_part((c[0] - a[0], c[1] - a[1]), (d[0] - b[0], d[1] - b[1]))
            one, two = along(a, b, part), along(c, d, part)
            if best is None or math.dist(one, two) < best[0]:
                best = math.dist(one, two), k + part, one, two
        assert best is not None         # a plan has at least one tick
        return best

    def extent(self) -> list[Place]:
        """Returns the places that must fit in the picture: tracks, paths, and the domains around them."""
        every = super().extent() + [place for path in self.paths.values() for place in path]
        for mmsi, radius in self.radii.items():
            for x, y in self.paths[mmsi]:
                every += [(x - radius, y - radius), (x + radius, y + radius)]
        return every


def minutes_apart(case: Planned) -> int:
    """Returns the minutes between two drawn moments, chosen to draw four to eight moments."""
    return next((k for k in (1, 2, 3, 5, 10, 15, 30) if case.last_tick * case.tick <= k * 60 * 8), 60)


def draw_past(chart: Chart[Planned]) -> None:
    """Draws the tracks, and the line from the last report to now for own ship and each target."""
    for mmsi, places in chart.case.places.items():
        parts = list(seen_parts(places))
        if parts and mmsi in chart.case.paths:
            parts[-1] = parts[-1] + [chart.case.paths[mmsi][0]]
        fill = TRACK if mmsi in chart.case.paths else QUIET
        for part in parts:
            line = [chart.at(place) for place in part]
            chart.picture.path(line, fill, 1.3)
            chart.labels.keep_clear(line)
            if mmsi not in chart.case.paths:
                draw_head(chart, line, fill)


def draw_domains(chart: Chart[Planned], ticks: Iterable[int]) -> None:
    """Draws a circle around each target at each of these moments, and her predicted path through them."""
    case = chart.case
    for k, mmsi in enumerate(case.targets):
        fill, path = OTHERS[k % len(OTHERS)], case.paths[mmsi]
        for tick in ticks:
            chart.picture.dot(chart.at(path[tick]), case.radii[mmsi] * chart.scale, fill, fill_opacity="0.07",
                              stroke=fill, stroke_width=0.8)
    for k, mmsi in enumerate(case.targets):
        fill, path = OTHERS[k % len(OTHERS)], case.paths[mmsi]
        line = [chart.at(place) for place in path]
        chart.picture.path(line, fill, 1.3, stroke_dasharray="5 3")
        chart.labels.keep_clear(line)
        draw_head(chart, line, fill)


def draw_own(chart: Chart[Planned]) -> list[tuple[Point, Coloured]]:
    """Draws own ship's legs, each in its colour, or her path on her present course if there is no plan. Returns the
    text of each leg with its place."""
    case = chart.case
    words: list[tuple[Point, Coloured]] = []
    path = [chart.at(place) for place in case.paths[case.own]]
    chart.labels.keep_clear(path)
    if not case.legs:
        chart.picture.path(path, LEGS[0], 1.3, stroke_dasharray="5 3")
        draw_head(chart, path, LEGS[0])
    for leg in case.legs:
        part, fill = path[leg.first - case.steps:leg.last - case.steps + 1], LEGS[leg.leg % len(LEGS)]
        chart.picture.path(part, fill, 3)
        order = f"{leg.course / 10:05.1f}\u00b0, {leg.speed / 10:.1f} knots"
        words.append((part[len(part) // 2], [(f"leg {leg.leg}:", fill), (order, fill)]))
        draw_head(chart, part, fill)
    return words


def draw_moments(chart: Chart[Planned], ticks: Iterable[int]) -> list[tuple[Point, int, str]]:
    """Draws a mark on each path at these ticks; returns its place, its minutes and its colour."""
    case, marks = chart.case, []
    for mmsi, path in case.paths.items():
        if len({(round(x), round(y)) for x, y in path}) > 1:
            fill = LEGS[0] if mmsi == case.own else OTHERS[case.targets.index(mmsi) % len(OTHERS)]
            marks += [(chart.at(path[tick]), tick * case.tick // 60, fill) for tick in ticks]
    for at, _, fill in marks:
        chart.picture.dot(at, 2.2, "#ffffff", stroke=fill, stroke_width=1.2)
        chart.labels.keep_off(at, 2)
    return marks


def draw_nearest(chart: Chart[Planned]) -> list[tuple[Point, str]]:
    """Draws the closest approach to each target; returns its place and text."""
    case, words = chart.case, []
    for mmsi in case.targets:
        far, moment, one, two = case.nearest_to(mmsi)
        a, b = chart.at(one), chart.at(two)
        chart.picture.line(a, b, INK, 1.2, stroke_dasharray="2 2")
        chart.labels.keep_clear([a, b])
        for end in (a, b):
            chart.picture.dot(end, 3.6, "none", stroke=INK, stroke_width=1.4)
            chart.labels.keep_off(end, 4)
        seconds = round(moment * case.tick)
        words.append((((a[0] + b[0]) / 2, (a[1] + b[1]) / 2), f"{far:.0f} m at {seconds // 60}:{seconds % 60:02d}"))
    return words


def draw_names(chart: Chart[Planned]) -> None:
    """Writes each vessel's name at the start of her track."""
    case = chart.case
    for mmsi, places in case.places.items():
        known = [place for place in places if place] + case.paths.get(mmsi, [])[:1]
        words = case.names.get(mmsi, str(mmsi)) + (" (own ship)" if mmsi == case.own else "")
        if known:
            chart.labels.put(chart.at(known[0]), words, 11, weight="bold" if mmsi in case.names else "normal", fill=INK)


def radii_words(case: Planned) -> str:
    """Returns the radii of the targets' domains as text."""
    if len(case.targets) <= 4:
        return " and ".join(f"{int(case.radii[mmsi])} m ({case.names[mmsi]})" for mmsi in case.targets)
    return f"{int(min(case.radii.values()))} m to {int(max(case.radii.values()))} m"


def draw_legend(chart: Chart[Planned], minutes: int) -> None:
    """Draws the legend of lines and circles."""
    case, y = chart.case, chart.bottom + 54
    each = "each minute" if minutes == 1 else f"each {minutes} minutes"
    lines = [f"Marks {each}, with minutes since {clock(case.now)} UTC, which is now. Thin lines: the tracks up to now.",
             f"Dashed lines: the targets as they are predicted{'' if case.legs else '; in blue own ship as she goes'}."]
    if case.targets:
        lines += ["Circles: the domains of the targets at the moments of the marks, with radii of "
                  f"{radii_words(case)}.",
                  "Dotted, between two rings: where own ship is nearest to a target, and when (minutes:seconds), as "
                  "the picture computes it."]
    for k, words in enumerate(lines):
        chart.picture.words(chart.left, y + 17 * k, words, 11)


def planned(case: Planned, title: str) -> str:
    """Returns the picture of a plan."""
    answer = f"plan {case.legs[0].number}" if case.legs else f"none of {case.refused} plans passes"
    chart = Chart(case, f"{title}: {answer}", 5 if case.targets else 3)
    minutes = minutes_apart(case)
    ticks = range(0, case.last_tick + 1, minutes * 60 // case.tick)
    draw_frame(chart, f"{date(case.now)}, now is {clock(case.now)} UTC.")
    draw_scale(chart)
    draw_past(chart)
    draw_domains(chart, ticks)
    legs, marks, nearest = draw_own(chart), draw_moments(chart, ticks), draw_nearest(chart)
    for at, leg in legs:
        chart.labels.put(at, leg, 11, weight="bold")
    for at, words in nearest:
        chart.labels.put(at, words, 11)
    draw_names(chart)
    for at, minute, fill in marks:
        chart.labels.put(at, str(minute), 9, needed=False, apart=4, fill=fill)
    draw_legend(chart, minutes)
    return chart.picture.text()
