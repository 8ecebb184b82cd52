"""The situation now: the vessels' places, their closest approaches, and the rules that bind own ship, all from the
program's rows."""
from __future__ import annotations

import csv
import math
from dataclasses import dataclass

from colregs.pilot.motion import Approach, Place, Rates, moved, path_approach, planned_path, straight_approach, velocity
from colregs.pilot.runner import Report
from colregs.pilot.scenario import PilotScenario, Window
from colregs.pilot.states import Plan, Track

BINDING = {
    "overtaking": ("r13", "r16"), "overtaken": ("r17a", "r17b"), "head_on": ("r14a", "r14b", "r14p"),
    "crossing_gives": ("r15", "r16"), "crossing_stands": ("r17a", "r17b", "r17c")
}  # docs/RULES.md: by the kind of a meeting
ALWAYS = ("r8b", "r8d")                                        # bind in a meeting of any kind


@dataclass(frozen=True)
class Sighting:
    """A vessel's latest accepted report: its time, her place in metres on the plane, and her course and speed if the
    report has both."""

    mmsi: int
    time: int
    place: Place
    track: Track | None

    def at(self, now: int) -> Place:
        """Returns her place at a time if she keeps course and speed; without either she stays (docs/PLAN.md)."""
        return moved(self.place, self.track, now - self.time) if self.track else self.place


@dataclass(frozen=True)
class Meeting:
    """A current meeting of own ship: the other vessel, its kind for own ship, and its start."""

    other: int
    kind: str
    begins: int

    def rules(self) -> tuple[str, ...]:
        """Returns the rules that bind own ship towards the other."""
        return BINDING.get(self.kind, ()) + ALWAYS


@dataclass(frozen=True)
class Target:
    """A target at a moment, with the closest approach if both keep course and speed, and along own ship's plan if there
    is one."""

    mmsi: int
    distance: float
    bearing: float
    kept: Approach
    planned: Approach | None
    meeting: Meeting | None


def latest_sightings(points: Report) -> dict[int, Sighting]:
    """Returns each vessel's latest accepted report among the rows of `points`."""
    found: dict[int, Sighting] = {}
    for row in points.rows("point"):
        track = Track(int(row[6]) / 10, int(row[5]) / 10) if row[5] and row[6] else None
        found[int(row[1])] = Sighting(int(row[1]), int(row[2]), (int(row[3]) / 10000, int(row[4]) / 10000), track)
    return found


def lasting_meetings(audit: Report, own: int, window: Window, gap: int) -> list[Meeting]:
    """Returns own ship's meetings that may be current, among the rows of an audit of a window that ends now.

    An audit sees a vessel only until her last report, so a meeting that ended less than the gap ago counts as current.
    """
    late = window.ticks - 2 - -(-gap // window.tick)
    last = {
        int(row[2]): Meeting(int(row[2]), row[3], window.start + int(row[4]) * window.tick)
        for row in audit.rows("meeting")
        if int(row[1]) == own and int(row[5]) >= late
    }
    return list(last.values())


def targets_of(scenario: PilotScenario, sightings: dict[int, Sighting], meetings: list[Meeting], plan: Plan | None,
               now: int) -> list[Target]:
    """Returns the targets of own ship at a time, the nearest first (docs/PLAN.md); no targets if own ship is not seen.
    """
    own = sightings.get(scenario.own)
    if own is None:
        return []
    place, mine = own.at(now), velocity(own.track) if own.track else (0.0, 0.0)
    rates = Rates(scenario.turn_rate / 10 / scenario.tick, scenario.speed_rate / 10 / scenario.tick)
    path = planned_path(place, own.track, plan, rates, scenario.tick, now) if plan is not None and own.track else None
    found = []
    for other in sightings.values():
        there = other.at(now)
        apart = there[0] - place[0], there[1] - place[1]
        if other.mmsi == scenario.own or now - other.time > scenario.gap or math.hypot(*apart) > scenario.range:
            continue
        theirs = velocity(other.track) if other.track else (0.0, 0.0)
        still = other.track or Track(0.0, 0.0)
        found.append(Target(other.mmsi, math.hypot(*apart), math.degrees(math.atan2(*apart)) % 360,
                            straight_approach(apart, (theirs[0] - mine[0], theirs[1] - mine[1])),
                            path_approach(path, there, still, scenario.tick) if path else None,
                            next((meeting for meeting in meetings if meeting.other == other.mmsi), None)))
    return sorted(found, key=lambda target: (target.distance, target.mmsi))


def names_of(plan: Report) -> dict[int, tuple[str, int]]:
    """Returns the name and the length in metres of each vessel among the rows of a report. A name may contain commas
    and quotes."""
    lines = [line for line in plan.text.split("\n") if line.startswith("vessel,")]
    return {int(row[1]): (row[2], int(row[4])) for row in csv.reader(lines) if len(row) == 7}
