"""The picture of the tracks: the plane of the scenario, north up."""
import itertools
import math
from collections.abc import Iterable, Iterator
from typing import Any, Generic, TypeVar

from colregs.errors import Fault
from colregs.model.reports import Case
from colregs.model.rows import Meeting, Stretch, Verdict
from colregs.model.rules import INK, clock, colour, date, meaning, nice
from colregs.model.tracks import Place, Places
from colregs.page.svg import Coloured, Labels, Picture, Point, thinned

TRACK, QUIET = "#3c4650", "#a9b2ba"
Window = TypeVar("Window", bound=Case)
MANY = 60       # if there are more vessels or meetings, only some get labels, and the picture says so


def seen_parts(places: Places) -> Iterator[list[Place]]:
    """Yields the runs of ticks at which a vessel is seen."""
    for seen, group in itertools.groupby(zip(places.xs, places.ys), key=lambda place: not math.isnan(place[0])):
        if seen:
            yield list(group)


class Chart(Generic[Window]):
    """The plane on paper, north up, one scale for both axes."""

    def __init__(self, case: Window, title: str, legend: int = 3) -> None:
        every = case.extent()
        if not every:
            raise Fault("no vessel is seen at the steps that are drawn: at most log.gap seconds may lie between two "
                        "reports")
        xs, ys = [x for x, _ in every], [y for _, y in every]
        pad = 0.04 * max(max(xs) - min(xs), max(ys) - min(ys), 1000)
        wide, high = max(xs) - min(xs) + 2 * pad, max(ys) - min(ys) + 2.6 * pad
        self.scale = min(900 / wide, 800 / high)
        wide, high = max(wide, 720 / self.scale), max(high, 180 / self.scale)
        self.west, self.south = (min(xs) + max(xs) - wide) / 2, (min(ys) + max(ys) - 0.6 * pad - high) / 2
        self.left, self.top, self.right, self.bottom = 60, 58, 60 + wide * self.scale, 58 + high * self.scale
        self.rules = [rule for rule in case.rules if any(v.rule == rule for v in case.verdicts)]
        self.left_out = ""                      # a note on what is left out
        self.marked: set[int] = set()           # the vessels with a marked closest approach
        self.case, self.title, self.crowded = case, title, len(case.places) > MANY
        is_partly_named = len(case.places) > MANY or len(case.meetings) > 2 * MANY
        self.rows = legend + math.ceil(len(self.rules) / self.columns()) + is_partly_named
        self.picture = Picture(self.right + 20, self.bottom + 46 + 17 * self.rows, title)
        self.labels = Labels(self.picture, (self.left + 2, self.top + 2, self.right - 2, self.bottom - 2))

    def columns(self) -> int:
        """Returns the number of columns of the legend."""
        return max(1, int((self.right - self.left) / 300))

    def at(self, place: Place) -> Point:
        """Returns the point of a place on the picture."""
        return self.left + (place[0] - self.west) * self.scale, self.bottom - (place[1] - self.south) * self.scale

    def line(self, places: Iterable[Place]) -> list[Point]:
        """Returns the points of many places on the picture."""
        left, bottom, scale, west, south = self.left, self.bottom, self.scale, self.west, self.south
        return [(left + (x - west) * scale, bottom - (y - south) * scale) for x, y in places]

    def stretch(self, verdict: Stretch) -> list[Point]:
        """Returns the subject's line in a stretch on the picture."""
        places = self.case.places[verdict.subject][verdict.first:verdict.last + 2]
        return [self.at(place) for place in places if place]


def window_words(case: Case) -> str:
    """Returns the drawn time as text."""
    first, last = (case.moment(step) for step in case.shown)
    until = clock(last) if date(first) == date(last) else f"{date(last)}, {clock(last)}"
    return f"{date(first)}, {clock(first)} to {until} UTC."


def draw_frame(chart: Chart[Any], words: str) -> None:
    """Draws the title, the grid in kilometres and the frame."""
    picture = chart.picture
    picture.words(chart.left, 24, chart.title, 16, weight="bold")
    picture.words(chart.left, 43, words + f" Distances from the reference, {place_words(chart.case.reference)}.", 11,
                  "#555555")
    apart = nice(70 / chart.scale)
    for vertical in (True, False):
        low, pixels = (chart.west, chart.right - chart.left) if vertical else (chart.south, chart.bottom - chart.top)
        high = low + pixels / chart.scale
        for k in range(math.ceil(low / apart), math.floor(high / apart) + 1):
            x, y = chart.at((k * apart, k * apart))
            words = f"{k * apart / 1000:g}"
            if vertical:
                picture.line((x, chart.top), (x, chart.bottom), "#e9edf0")
                picture.words(x, chart.bottom + 14, words, 10, "#555555", "middle")
            else:
                picture.line((chart.left, y), (chart.right, y), "#e9edf0")
                picture.words(chart.left - 6, y + 3.5, words, 10, "#555555", "end")
    picture.box(chart.left, chart.top, chart.right - chart.left, chart.bottom - chart.top, "none", stroke="#8a949d")
    picture.words((chart.left + chart.right) / 2, chart.bottom + 29, "km to the east", 10, "#555555", "middle")
    picture.parts.append(f'<text transform="translate({chart.left - 34},{int((chart.top + chart.bottom) / 2)}) '
                         'rotate(-90)" font-size="10" '
                         'fill="#555555" text-anchor="middle">km to the north</text>')


def place_words(reference: dict[str, int]) -> str:
    """Returns a reference in degrees and minutes."""
    def side(value: int, names: str) -> str:
        minutes = abs(value) / 10000
        return f"{int(minutes // 60)}\u00b0{minutes % 60:05.2f}' {names[value < 0]}"
    return f"{side(reference['lat'], 'NS')}, {side(reference['lon'], 'EW')}"


def draw_scale(chart: Chart[Any]) -> None:
    """Draws a scale bar and a north arrow at the bottom of the plane."""
    length = nice(90 / chart.scale)
    x, y = chart.left + 14.0, chart.bottom - 14
    end = x + length * chart.scale
    chart.picture.line((x, y), (end, y), INK, 2)
    for at in (x, end):
        chart.picture.line((at, y - 4), (at, y + 4), INK, 1.5)
    words = f"{length / 1000:g} km" if length >= 1000 else f"{length:.0f} m"
    chart.picture.words((x + end) / 2, y - 7, words, 11, anchor="middle")
    chart.labels.keep_box((x - 6, y - 22, end + 6, y + 8))
    x, y = chart.right - 22, chart.top + 16.0
    chart.picture.words(x, y + 3, "N", 12, anchor="middle", weight="bold")
    chart.picture.path([(x, y + 36), (x, y + 8)], INK, 1.5)
    chart.picture.add("path", d=f"M{int(x)} {int(y + 7)} l-4 9 h8 z", fill=INK)
    chart.labels.keep_box((x - 10, y - 10, x + 10, y + 40))


def draw_tracks(chart: Chart[Case]) -> None:
    """Draws each vessel's track."""
    met = {mmsi for meeting in chart.case.meetings for mmsi in meeting.pair}
    for mmsi, places in sorted(chart.case.places.items(), key=lambda entry: entry[0] in met):
        fill = TRACK if mmsi in met else QUIET
        for part in seen_parts(places):
            line = chart.line(part)
            few = thinned(line)
            chart.picture.path(few, fill, 0.7 if chart.crowded else 1.3)
            chart.labels.keep_clear(few)
            draw_head(chart, line, fill)


def draw_head(chart: Chart[Any], line: list[Point], fill: str) -> None:
    """Draws an arrow at the end of a track, or a dot if the vessel has not moved visibly in ten minutes."""
    (u, v), last, size = line[-1], len(line) - 1, 0.6 if chart.crowded else 1.0
    back = [line[max(0, last - k)] for k in (3, *range(4, max(5, 600 // chart.case.tick + 1)))]
    x, y = next((place for place in back if math.dist(place, (u, v)) >= 1), (u, v))
    if (x, y) == (u, v):
        chart.picture.dot((u, v), 3 * size, fill)
        return
    turn = math.degrees(math.atan2(v - y, u - x))
    chart.picture.add("path", d=f"M{5 * size:g} 0 L-{5 * size:g} -{4 * size:g} L-{5 * size:g} {4 * size:g} z",
                      fill=fill, transform=f"translate({u:.1f},{v:.1f}) rotate({turn:.1f})")


def minutes_apart(chart: Chart[Case]) -> int:
    """Returns the minutes between two marks, chosen so that the marks of a usual vessel do not overlap."""
    if chart.crowded:
        return 60
    ways = sorted(sum(math.dist(a, b) for a, b in zip(part, part[1:])) * chart.scale / (len(part) - 1)
                  for places in chart.case.places.values() for part in seen_parts(places) if len(part) > 1)
    each = ways[len(ways) * 2 // 3] / chart.case.tick * 60 if ways else 0
    return next((k for k in (1, 2, 5, 10, 15, 30) if k * each >= 40), 60)


def draw_marks(chart: Chart[Case], minutes: int) -> list[tuple[Point, int]]:
    """Draws a mark on each track every `minutes` minutes; none if there are many vessels."""
    every, marks = minutes * 60 // chart.case.tick, []
    for places in chart.case.places.values() if not chart.crowded else ():
        seen = [(k, place) for k in range(every, len(places) - 1, every) if (place := places[k])]
        if len({(round(x, 0), round(y, 0)) for _, (x, y) in seen}) > 1:
            marks += [(chart.at(place), k * chart.case.tick // 60) for k, place in seen]
    for at, _ in marks:
        chart.picture.dot(at, 2.2, "#ffffff", stroke=TRACK, stroke_width=1)
    return marks


def lanes(verdicts: list[Verdict]) -> Iterator[tuple[Verdict, int]]:
    """Yields each stretch with a lane beside the track; stretches at the same time get different lanes."""
    taken: list[int] = []
    for verdict in sorted(verdicts, key=lambda v: (v.first, -v.last)):
        lane = next(k for k in range(len(taken) + 1) if k == len(taken) or taken[k] < verdict.first)
        if lane == len(taken):
            taken.append(0)
        taken[lane] = verdict.last + 1
        yield verdict, lane


def shifted(line: list[Point], by: float) -> list[Point]:
    """Returns a line moved to its starboard side by a distance."""
    out = []
    for k, (x, y) in enumerate(line):
        (a, b), (c, d) = line[max(0, k - 1)], line[min(len(line) - 1, k + 1)]
        size = math.hypot(c - a, d - b) or 1
        out.append((x - by * (d - b) / size, y + by * (c - a) / size))
    return out


def side(case: Case, verdict: Verdict) -> int:
    """Returns 1 if the other vessel is on the port side in the middle of the stretch, otherwise -1."""
    middle = (verdict.first + verdict.last + 1) // 2
    mine, others = (case.places[mmsi] for mmsi in verdict.pair)
    ends = [place for place in (mine[verdict.first], mine[verdict.last + 1], mine[middle], others[middle]) if place]
    if len(ends) < 4:
        return 1
    (a, b), (c, d), (x, y), (u, v) = ends
    return 1 if (c - a) * (v - y) - (d - b) * (u - x) >= 0 else -1


def draw_stretch(chart: Chart[Case], verdict: Verdict, lane: int) -> Point:
    """Draws a line beside the track, away from the other vessel, or a dot if the stretch is short; hollow if the rule
    stayed open. Returns the middle of the line."""
    line = shifted(chart.stretch(verdict), side(chart.case, verdict) * (5 * (lane + 1) - 1))
    fill, broken = colour(verdict.rule), verdict.value == "broken"
    chart.labels.keep_clear(line)
    if sum(math.dist(a, b) for a, b in zip(line, line[1:])) < 9:
        chart.picture.dot(line[0], 4, fill if broken else "#ffffff", stroke=fill, stroke_width=2)
        chart.labels.keep_off(line[0], 5)
    else:
        chart.picture.path(line, fill, 4, **({} if broken else {"stroke_dasharray": "3 3"}))
    return line[len(line) // 2]


def draw_stretches(chart: Chart[Case]) -> list[tuple[Point, Coloured]]:
    """Draws the stretches of each vessel. Returns one place with its rules for each group that overlaps in time."""
    placed = []
    for mmsi in chart.case.places:
        until = -1
        for verdict, lane in lanes([v for v in chart.case.verdicts if v.subject == mmsi and chart.stretch(v)]):
            middle, word = draw_stretch(chart, verdict, lane), (verdict.rule, colour(verdict.rule))
            if verdict.first > until:
                placed.append((middle, [word]))
            else:
                placed[-1] = middle, placed[-1][1] + [word] if word not in placed[-1][1] else placed[-1][1]
            until = max(until, verdict.last)
    return placed


def draw_dots(chart: Chart[Case]) -> list[tuple[Point, Coloured]]:
    """Draws a dot at the start of each stretch, in the rule's colour; hollow if the rule stayed open. It draws no
    labels, because there are many dots."""
    spots = {}
    for verdict in chart.case.verdicts:
        line = chart.stretch(verdict)
        if line:
            spots[round(line[0][0]), round(line[0][1]), verdict.rule, verdict.value] = line[0]
    for (_, _, rule, value), at in spots.items():
        chart.picture.dot(at, 2.2,
                          colour(rule) if value == "broken" else "#ffffff", stroke=colour(rule), stroke_width=0.8)
    return []


def unordered(meetings: list[Meeting]) -> list[Meeting]:
    """Returns one of the two meetings that each two vessels have."""
    return [m for m in meetings if m.subject < m.other]


def draw_meetings(chart: Chart[Case]) -> list[tuple[Point, str]]:
    """Draws the closest approach of each meeting, or of the nearest meetings if there are many; returns the labels."""
    labels, case = [], chart.case
    meetings = unordered(case.meetings)
    if len(meetings) > MANY:
        near = {meeting.pair: meeting for meeting in sorted(meetings, key=lambda m: -m.least)}
        few = sorted(near.values(), key=lambda m: m.least)[:MANY // 2]
        chart.left_out = f"Marks the {len(few)} of {len(meetings)} meetings that came nearest. "
        meetings = few
    for meeting, found in [(meeting, case.shown_moment(meeting)) for meeting in meetings]:
        if found is None:
            continue
        moment, one, two = found
        a, b = chart.at(one), chart.at(two)
        chart.picture.line(a, b, INK, 1.2, stroke_dasharray="2 2")
        for end in (a, b):
            chart.picture.dot(end, 3.6, "none", stroke=INK, stroke_width=1.4)
            chart.labels.keep_off(end, 4)
        chart.labels.keep_clear([a, b])
        middle = (a[0] + b[0]) / 2, (a[1] + b[1]) / 2
        chart.marked.update(meeting.pair)
        labels.append((middle, f"{meeting.metres:.0f} m at {clock(round(case.start + moment))}"))
    return labels


def draw_names(chart: Chart[Case]) -> None:
    """Writes each vessel's name at the start of her track. If there are many, only vessels with a marked closest
    approach get a name."""
    for mmsi, places in chart.case.places.items():
        first = next((place for place in places if place), None)
        if first and (not chart.crowded or mmsi in chart.marked):
            chart.labels.put(chart.at(first), chart.case.name(mmsi), 11, weight="bold", fill=INK)
    if chart.crowded:
        chart.left_out += (f"Only these of {len(chart.case.places)} vessels have names; --pair, --from and --to select "
                           "two vessels, or a part of the time.")


def draw_legend(chart: Chart[Case], minutes: int) -> None:
    """Draws the legend of marks and colours."""
    picture, y = chart.picture, chart.bottom + 54
    each = "each minute" if minutes == 1 else f"each {minutes} minutes"
    marks = "" if chart.crowded else f"Marks {each}, with minutes since {clock(chart.case.start)} UTC. "
    dots = " A dot of a rule's colour is where a stretch of it begins." if chart.crowded else ""
    picture.words(chart.left, y, marks + "An arrow is where a vessel ends; a dot is one that stays." + dots, 11)
    picture.words(chart.left, chart.bottom + 30 + 17 * chart.rows, chart.left_out, 11)
    picture.line((chart.left, y + 13), (chart.left + 26, y + 13), INK, 1.2, stroke_dasharray="2 2")
    for x in (chart.left, chart.left + 26):
        picture.dot((x, y + 13), 3.6, "none", stroke=INK, stroke_width=1.4)
    words = "where two vessels in a meeting were nearest, and when"
    if any(v.value == "open" for v in chart.case.verdicts):
        words += ". Of the rules below: filled is broken, dashed or hollow is open, undecided"
    picture.words(chart.left + 36, y + 17, words, 11)
    wide = (chart.right - chart.left) / chart.columns()
    for k, rule in enumerate(chart.rules):
        left, row = chart.left + k % chart.columns() * wide, y + 36 + 17 * (k // chart.columns())
        picture.line((left, row - 4), (left + 26, row - 4), colour(rule), 4)
        picture.words(left + 36, row, f"{rule}: {meaning(rule)}", 11)


def tracks(case: Case, title: str) -> str:
    """Returns the picture of the tracks."""
    chart = Chart(case, title)
    draw_frame(chart, window_words(case))
    draw_scale(chart)
    draw_tracks(chart)
    placed = draw_stretches(chart) if not chart.crowded else draw_dots(chart)
    minutes = minutes_apart(chart)
    marks = draw_marks(chart, minutes)
    meetings = draw_meetings(chart)
    for at, rules in placed:
        chart.labels.put(at, rules, 11, weight="bold")
    for at, words in meetings:
        chart.labels.put(at, words, 11)
    draw_names(chart)
    for at, minute in marks:
        chart.labels.put(at, str(minute), 9, needed=False, apart=4, fill="#6a747c")
    draw_legend(chart, minutes)
    return chart.picture.text()
