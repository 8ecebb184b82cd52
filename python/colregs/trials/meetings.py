"""Encounters drawn from a seed: start places at which the others come near own ship if all keep course and speed."""
from __future__ import annotations

import math
import random
from dataclasses import dataclass

from colregs.pilot.motion import Place, velocity
from colregs.pilot.scenario import PilotScenario, whole
from colregs.pilot.states import Track

OWN_LENGTH = 100           # m
FIRST_OTHER = 200000100    # the MMSI of the first of the others
SHORTEST = 600.0           # the least time until two vessels that keep course and speed are nearest, in seconds
# the others start farther off than the watch or the horizon reach, by this factor, so that no meeting has begun
EARLIER = 1.2
MISS = 150                 # m: the standard deviation of the place of closest approach


@dataclass(frozen=True)
class Kind:
    """A kind of encounter by its geometry: the other's course relative to own ship's in degrees, and the ratio of their
    speeds."""

    name: str
    courses: tuple[float, float]
    speeds: tuple[float, float]


KINDS = {kind.name: kind for kind in (
    Kind("head_on", (170, 190), (0.6, 1.3)),
    Kind("crossing_gives", (190, 300), (0.6, 1.5)),
    Kind("crossing_stands", (60, 170), (0.6, 1.5)),
    Kind("overtaking", (-20, 20), (0.3, 0.6)),
    Kind("overtaken", (-20, 20), (1.4, 2.0)),
)}
ANY = "any"


@dataclass(frozen=True)
class Begin:
    """The start of one of the others: her MMSI, her name, her length (m), her place (m), and her course and speed."""

    mmsi: int
    name: str
    length: int
    place: Place
    track: Track
    kind: str


def nearest_place(own: Track, other: Track, seconds: float, miss: Place) -> Place:
    """Returns the start place from which the other is at `miss` from own ship after `seconds`; own ship starts at the
    origin."""
    mine, theirs = velocity(own), velocity(other)
    return (mine[0] - theirs[0]) * seconds + miss[0], (mine[1] - theirs[1]) * seconds + miss[1]


def seconds_to_nearest(scenario: PilotScenario, own: Track, other: Track) -> float:
    """Returns the least time to the closest approach for which the encounter has not yet begun at the start."""
    mine, theirs = velocity(own), velocity(other)
    closing = max(0.1, math.dist(mine, theirs))
    horizon = whole(scenario.values, "detect", "horizon")
    return max(SHORTEST, min(scenario.watch / closing, float(horizon)) * EARLIER)


def drawn(scenario: PilotScenario, own: Track, kinds: tuple[str, ...], targets: tuple[int, int],
          draw: random.Random) -> tuple[str, list[Begin]]:
    """Draws the kind of a run from `kinds`, and from `targets[0]` to `targets[1]` others."""
    name, found = draw.choice(kinds), list[Begin]()
    for number in range(draw.randint(*targets)):
        kind = KINDS[draw.choice(list(KINDS)) if name == ANY else name]
        track = Track((own.course + draw.uniform(*kind.courses)) % 360, own.speed * draw.uniform(*kind.speeds))
        seconds = seconds_to_nearest(scenario, own, track) * (1.0 if number == 0 else draw.uniform(1.0, 1.5))
        miss = draw.gauss(0, MISS), draw.gauss(0, MISS)
        length = round(draw.triangular(20, 300, 100))
        found.append(
            Begin(FIRST_OTHER + number, f"OTHER {number + 1}", length, nearest_place(own, track, seconds, miss), track,
                  kind.name))
    return name, found
