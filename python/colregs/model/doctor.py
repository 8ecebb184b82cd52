"""Finds mistakes in a scenario, a log and a report: `findings`. It judges no encounter itself; it counts rows of the
program."""
import collections
import csv
import functools
import io
import math
import time
import tomllib
from collections.abc import Iterable, Iterator, Sequence
from typing import Any

from colregs.model import log_checks, lost, scenario_checks
from colregs.io.files import read_bytes
from colregs.io.logs import sampled
from colregs.io.sentences import ship_place
from colregs.model.rows import METRE, Meeting, row_of
from colregs.model.rules import utc
from colregs.model.scenario_checks import Finding, numbers_at
from colregs.model.tracks import NONE, Track
from colregs.run.limits import next_step
from colregs.run.program import Columns, Run

REFUSED = {3: "this is the first key with a fault; docs/SCENARIO.md has its range",
           4: "is its name right, and may it be read",
           9: "own ship must be in the log before the window's end, with course and speed"}
NO_SENTENCE = ("empty", "long", "tag", "other", "form", "sum", "armour")
SHOWN = 5                               # findings of one name that are shown; the others are counted
DAY = 86400                             # s
ROLLOVER = 1024 * 7 * DAY               # s: after so long the week of GPS begins at 0 again
STILL = 5                               # 1/10 knot: who never makes this lies still


def mode_of(report: bytes) -> str | None:
    """Returns the mode that wrote a report, by its rows; None if it has none that shows it."""
    kinds = {line.split(b",", 1)[0] for line in report.split(b"\n")}
    if kinds & {b"plan", b"none"}:
        return "plan"
    return "audit" if kinds & {b"total", b"vessel"} else "points" if b"lines" in kinds else None


class Patient:
    """A scenario's values, a log, a report, and what the program writes of them."""

    def __init__(self, scenario: str, log: str, report: str | None, program: str, options: Sequence[str],
                 known: tuple[Run, Run] | None = None) -> None:
        self.scenario, self.log, self.program, self.options = scenario, log, program, options
        self.values = read_scenario(scenario)
        self.report = None if report is None else read_bytes(report)
        self.audit, self.points = known or (self.run("audit"), self.run("points"))
        self.counts = self.audit.counts() if self.audit.status == 0 else {}
        columns = self.points.columns() if self.points.status == 0 else Columns([], [], [], [], [], [])
        self.ships, self.times, self.easts, self.norths, self.speeds, self.courses = columns
        self.vessels = {int(fields[1]): fields for fields in self.rows("vessel")}
        self.sentences = sum(count for name, count in self.counts.items() if name not in NO_SENTENCE)

    def run(self, mode: str, *options: str) -> Run:
        """Runs the program on the scenario and the log."""
        return Run(self.program, mode, self.scenario, self.log, [*self.options, *options])

    @functools.cached_property
    def kinds(self) -> dict[str, list[list[str]]]:
        """Returns the rows of the audit by their kinds."""
        kinds: dict[str, list[list[str]]] = collections.defaultdict(list)
        for fields in csv.reader(io.StringIO(self.audit.text.decode("utf-8", "replace"))):
            kinds[fields[0] if fields else ""].append(fields)
        return kinds

    def rows(self, kind: str) -> list[list[str]]:
        """Returns the rows of the audit of a kind, as fields."""
        return self.kinds.get(kind, [])

    def tracks(self) -> dict[int, Track]:
        """Returns the vessels' accepted reports, with times after the window's start."""
        found: dict[int, Track] = collections.defaultdict(Track)
        start = self.window()[0]
        for mmsi, at, x, y, speed, course in zip(self.ships, self.times, self.easts, self.norths, self.speeds,
                                                 self.courses):
            found[mmsi].add(at - start, x / METRE, y / METRE, int(speed or NONE), int(course or NONE))
        return found

    def window(self) -> tuple[int, int]:
        """Returns the first and the last second of the window."""
        given = {name: int(value) for name, value in (word[2:].split("=") for word in self.options)}
        start, tick, ticks = (given.get(word, numbers_at(self.values, "window." + word)[0])
                              for word in ("start", "tick", "ticks"))
        return start, start + tick * ticks


def read_scenario(path: str) -> dict[str, Any]:
    """Returns the values of a scenario; none if it is no TOML, which the program reports."""
    try:
        return tomllib.loads(read_bytes(path).decode("utf-8", "replace"))
    except (ValueError, RecursionError):
        return {}


def refusal(mode: str, run: Run) -> Finding:
    """Returns the finding for a run that the program refused."""
    more = next_step(run.status, run.words)[2:] or REFUSED.get(run.status, "docs/ROWS.md has the status")
    return Finding("refused run", f"`{mode}` ended with status {run.status}, {run.words}: {more}")


def refused(patient: Patient) -> Iterator[Finding]:
    """Yields the run that the program refused."""
    if patient.audit.status or patient.points.status:
        yield refusal("audit", patient.audit) if patient.audit.status else refusal("points", patient.points)


def other_report(patient: Patient) -> Iterator[Finding]:
    """Yields a finding if the report is not what the program writes."""
    if patient.report is None or patient.audit.status:
        return
    mode = mode_of(patient.report)
    if mode is None:
        yield Finding("no whole report", "the report has no rows `lines`, with which each report ends")
        return
    asked = ["--why"] if b"\nwhy," in patient.report else []
    fresh = {"audit": patient.audit, "points": patient.points}.get(mode) or patient.run(mode, *asked)
    if fresh.status not in (0, 1):
        yield refusal(mode, fresh)
    elif fresh.text != patient.report:
        yield Finding("report of something else",
                      f"`{mode}` with this scenario and log writes another report: was it cut off, or had it other "
                      "values, `--start`, `--ticks` or another log")


def no_times(patient: Patient) -> Iterator[Finding]:
    """Yields a finding if the log has no times, or few."""
    looked, told = log_checks.times_of(patient.log)
    dropped = sum(patient.counts.get(name, 0) for name in ("back", "repeat", "jump"))
    if looked and not told:
        yield Finding("no times", "no tag block has a time, so only the first report of each vessel counts. Give times "
                      "by tools/colregs-tagged")
    elif looked > 2 * len(told) and dropped > patient.counts.get("point", 0):
        yield Finding("no times", f"{looked - len(told)} of {looked} lines have no time of their own, and count at the "
                      "time of a line before. Give times by tools/colregs-tagged")


def future(patient: Patient) -> Iterator[Finding]:
    """Yields a finding if the log has times that this machine's clock has not reached."""
    _, told = log_checks.times_of(patient.log)
    latest, now = max([*told, *patient.times], default=0), time.time()
    if latest <= now + DAY:
        return
    rolled = latest - ROLLOVER
    hint = f"; less the 1024 weeks of a GPS roll-over it would be {utc(rolled)}" if rolled <= now + DAY else ""
    yield Finding("times in the future", f"the log has times up to {utc(latest)} UTC, and this machine's "
                  f"clock shows {utc(now)}: was the receiver's clock not set{hint}")


def window_misses(patient: Patient) -> Iterator[Finding]:
    """Yields a finding if the window and the log have little time in common."""
    _, told = log_checks.times_of(patient.log)
    if not told or not patient.counts:
        return
    first, last = patient.window()
    begin, end = min([*told, *patient.times]), max([*told, *patient.times])
    held = min(last, end) - max(first, begin)
    if 2 * max(held, 0) < last - first and last - first > 1:
        hint = ""
        hours = round((begin - first) / 3600)
        if hours and abs(begin - first - 3600 * hours) < 300 and abs(hours) <= 14:
            hint = f". They lie {abs(hours)} whole hours apart: is one of them in local time"
        yield Finding("window misses the log",
                      f"the window is from {utc(first)} to {utc(last)} UTC, and the log from "
                      f"{utc(begin)} to {utc(end)}{hint}")


def region_misses(patient: Patient) -> Iterator[Finding]:
    """Yields a finding if most reports lie too far from the reference."""
    far, near = patient.counts.get("far", 0), patient.counts.get("point", 0)
    if far <= near:
        return
    places = [told for told in map(ship_place, sampled(patient.log)) if told]
    latitude, longitude = (sorted(told[k] for told in places)[len(places) // 2] if places else 0 for k in (0, 1))
    reference = [numbers_at(patient.values, "reference." + word)[0] for word in ("lat", "lon")]
    hint = ""
    if close(reference, (longitude, latitude)):
        hint = ". Latitude and longitude look exchanged"
    elif any(close(reference, (one * latitude, two * longitude)) for one, two in ((-1, 1), (1, -1), (-1, -1))):
        hint = ". South and west are negative"
    yield Finding("region misses the log", f"{far} reports lie too far from the reference {reference[0]}, "
                  f"{reference[1]}; most lie about {latitude}, {longitude}{hint}")


def reference_far(patient: Patient) -> Iterator[Finding]:
    """Yields a finding if the reference is so far north or south that lengths to the east are wrong by more than a
    hundredth."""
    if not patient.norths:
        return
    told = numbers_at(patient.values, "reference.lat")[0] / 600000
    middle = told + sorted(patient.norths)[len(patient.norths) // 2] / 1852 / 600000
    wrong = math.cos(math.radians(told)) / math.cos(math.radians(middle)) - 1
    if abs(wrong) > 0.01:
        yield Finding("reference far from the traffic",
                      f"the middle of the reports is at latitude {round(middle * 600000)}, and lengths to the east are "
                      f"{abs(wrong) * 100:.1f} % too {'great' if wrong > 0 else 'small'} there")


def no_reports(patient: Patient) -> Iterator[Finding]:
    """Yields a finding if the program accepts no report, with what became of the lines instead."""
    if patient.counts and not patient.counts.get("point"):
        most = sorted((name for name, count in patient.counts.items() if count), key=lambda name: patient.counts[name],
                      reverse=True)
        told = ", ".join(f"{patient.counts[name]} `{name}`" for name in most[:3])
        hint = ": tools/colregs-tagged reads lines that do not begin with a sentence" if most[:1] == ["other"] else ""
        yield Finding("no reports", f"no position report is accepted; the lines count as {told}{hint}")


def close(one: Sequence[float], two: Sequence[float]) -> bool:
    """Returns whether two places are within two degrees of each other."""
    return all(abs(a - b) <= 1200000 for a, b in zip(one, two))


def unsorted(patient: Patient) -> Iterator[Finding]:
    """Yields a finding if many lines are out of order."""
    late = patient.counts.get("late", 0)
    if 100 * late > patient.sentences:
        yield Finding("unsorted lines", f"{late} of {patient.sentences} sentences are out of order by more than "
                      "`log.slack`: sort them by tools/colregs-tagged")


def damaged(patient: Patient) -> Iterator[Finding]:
    """Yields a finding for each outcome that is far more frequent than in a good log."""
    lines = sum(patient.counts.values())
    for names, part, name, words in (
            (("form", "sum", "armour"), 10, "damaged sentences",
             "a receiver, or what copied the log, damages sentences"),
            (("tag",), 100, "damaged tag blocks", "their form or checksum is wrong, and their lines are lost"),
            (("jump",), 20, "many jumps", "to come there a vessel would be faster than `log.max_speed`"),
            (("nopos",), 2, "reports without a place", "their receivers have none")):
        count = sum(patient.counts.get(name, 0) for name in names)
        if part * count > lines:
            yield Finding(name, f"{count} of {lines} lines: {words}")
    if patient.counts.get("orphan", 0) > patient.counts.get("part", 0):
        yield Finding("parts without their messages", f"{patient.counts['orphan']} parts of messages lack the parts "
                      "before them: were lines taken out")


def absent(patient: Patient) -> Iterator[Finding]:
    """Yields subjects and own ship that the log does not have."""
    if patient.audit.status or not patient.vessels:
        return
    for name in ("subjects", "own.mmsi"):
        for mmsi in numbers_at(patient.values, name):
            if 200000000 <= mmsi <= 799999999 and mmsi not in patient.ships:
                yield Finding("subject not in the log",
                              f"`{name}` has {mmsi}, and the log has no report of hers in the window")


def unseen(patient: Patient) -> Iterator[Finding]:
    """Yields vessels whose reports no legs join, tracks without course or speed, and a window in which nobody is
    watched."""
    points, legs = (sum(int(fields[k] or 0) for fields in patient.vessels.values()) for k in (5, 6))
    if patient.vessels and points > 3 * len(patient.vessels) and 2 * legs < points - len(patient.vessels):
        follow = points - len(patient.vessels)
        yield Finding("gap shorter than reports are apart", f"{follow - legs} of {follow} reports follow the one "
                      "before by more than `log.gap`: such vessels are not seen")
    lacking = sum(not speed or not course for speed, course in zip(patient.speeds, patient.courses))
    if 2 * lacking > len(patient.speeds):
        yield Finding("no course or no speed", "most reports have no course or no speed: rules that need them stay "
                      "open")
    totals = patient.rows("total")
    if len(patient.vessels) > 1 and totals and all(fields[2] == "0" for fields in totals) and legs:
        watch = (numbers_at(patient.values, "detect.watch") or [""])[0]
        yield Finding("nobody is watched",
                      f"no two vessels come within `detect.watch = {watch}` m of each other in the window")


def senders(patient: Patient) -> Iterator[Finding]:
    """Yields findings about vessels and the messages that they sent."""
    found = log_checks.Senders(patient.log)
    yield from found.clock()
    shared = list(found.shared())
    yield from shared
    jumps, points = patient.counts.get("jump", 0), collections.Counter(patient.ships)
    for mmsi, reports, kept in found.lost(points) if not shared else ():
        if jumps >= reports - kept:
            yield Finding("many jumps", f"{kept} of {reports} reports of {mmsi} are accepted: is she faster than "
                          "`log.max_speed`")
    yield from found.no_ships({mmsi: fields[2] for mmsi, fields in patient.vessels.items() if mmsi in points})


def at_rest(patient: Patient) -> Iterator[Finding]:
    """Yields verdicts of subjects that never make half a knot."""
    fastest: dict[int, int] = {}
    for mmsi, speed in zip(patient.ships, patient.speeds):
        if speed:
            fastest[mmsi] = max(fastest.get(mmsi, 0), int(speed))
    still = collections.Counter(
        int(fields[1]) for fields in patient.rows("verdict") if fastest.get(int(fields[1]), STILL) < STILL)
    for mmsi, count in sorted(still.items()):
        yield Finding("verdicts at rest", f"{mmsi} never makes 0.5 knots, and has {count} of the verdicts")


def contact_lost(patient: Patient) -> Iterator[Finding]:
    """Yields meetings that end because a vessel is no longer heard while the two are closing, the nearest first."""
    rows = {(*row.both, row.first, row.last): row
            for row in map(row_of, patient.rows("meeting")) if isinstance(row, Meeting)}
    if not rows:
        return
    tracks, (start, end) = patient.tracks(), patient.window()
    tick, gap = (numbers_at(patient.values, name)[0] for name in ("window.tick", "log.gap"))
    ends = [(row, found) for row in rows.values()
            if (found := lost.lost(tracks, row, tick, (end - start) // tick, gap))]
    for row, found in sorted(ends, key=lambda entry: entry[1].ahead.least if entry[1].ahead else 0):
        if found.still_closing(row.metres):
            one, two = (f"{patient.vessels[mmsi][2]} ({mmsi})" if patient.vessels[mmsi][2] else str(mmsi)
                        for mmsi in sorted(row.pair))
            yield Finding("contact lost", f"{one} and {two}: {lost.words(found, row.metres, start)}")


CHECKS = (refused, other_report, no_reports, no_times, future, window_misses, region_misses, reference_far, unsorted,
          damaged, absent, unseen, senders, at_rest, contact_lost)


def shortened(found: Iterable[Finding]) -> Iterator[Finding]:
    """Yields the findings; if many have one name, a few of them, and how many more there are."""
    counts: collections.Counter[str] = collections.Counter()
    for finding in found:
        counts[finding.name] += 1
        if counts[finding.name] <= SHOWN:
            yield finding
    for name, count in counts.items():
        if count > SHOWN:
            yield Finding(name, f"and {count - SHOWN} more such")


def findings(scenario: str, log: str, report: str | None, program: str, options: Sequence[str] = (),
             known: tuple[Run, Run] | None = None) -> list[Finding]:
    """Returns the mistakes, each with a name and a description. The report may be None; options are those of the
    program, such as `--ticks=60`.

    `known` are the runs of `audit` and `points`, if they need not be made again.
    """
    patient = Patient(scenario, log, report, program, options, known)
    found = list(scenario_checks.findings(patient.values))
    form = list(log_checks.form_of(log))
    found += form
    for check in CHECKS if not form else (refused, other_report):
        found += check(patient)
    return list(shortened(found))
