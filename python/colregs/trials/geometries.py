"""Fixed encounters: crossing angles by ratios of speed, and geometries in the style of the literature on collision
avoidance."""
from __future__ import annotations

import math
from dataclasses import replace

from colregs.pilot.motion import velocity
from colregs.pilot.scenario import PilotScenario
from colregs.pilot.states import Track
from colregs.trials.batch import Job
from colregs.trials.meetings import FIRST_OTHER, Begin, nearest_place, seconds_to_nearest
from colregs.trials.trial import Setting

ANGLES = range(0, 360, 10)                       # degrees: the other's course against own ship's
RATIOS = (0.5, 0.75, 1.0, 1.25, 1.5, 2.0)        # her speed against own ship's
LENGTH = 100                                     # m
SLOWEST = 1.5                                    # m/s: two vessels that close more slowly meet too late for a trial
# Each geometry is a list of others: course relative to own ship's in degrees, and ratio of speed. If all kept course
# and speed, all would be nearest at the same moment.
AHEAD, STARBOARD, PORT, SLOW, FAST = (180.0, 1.0), (270.0, 1.0), (90.0, 1.0), (0.0, 0.4), (0.0, 1.7)
BOW_STARBOARD, BOW_PORT, QUARTER_STARBOARD, QUARTER_PORT = (225.0, 1.0), (135.0, 1.0), (315.0, 1.3), (45.0, 1.3)
GEOMETRIES: tuple[tuple[tuple[float, float], ...], ...] = (
    (AHEAD,), (STARBOARD,), (PORT,), (SLOW,), (FAST,),
    (AHEAD, STARBOARD), (AHEAD, PORT), (STARBOARD, PORT), (SLOW, STARBOARD), (SLOW, PORT), (SLOW, AHEAD),
    (BOW_STARBOARD, STARBOARD), (BOW_PORT, PORT), (QUARTER_STARBOARD, AHEAD),
    (AHEAD, STARBOARD, PORT), (SLOW, STARBOARD, PORT), (SLOW, AHEAD, STARBOARD), (AHEAD, BOW_STARBOARD, STARBOARD),
    (AHEAD, BOW_PORT, PORT), (SLOW, QUARTER_STARBOARD, QUARTER_PORT), (BOW_STARBOARD, BOW_PORT, AHEAD),
    (SLOW, FAST, BOW_STARBOARD),
)


def begin_of(scenario: PilotScenario, own: Track, number: int, angle: float, ratio: float, seconds: float) -> Begin:
    """Returns one of the others, whose track meets own ship's after `seconds`."""
    track = Track((own.course + angle) % 360, own.speed * ratio)
    return Begin(FIRST_OTHER + number, f"OTHER {number + 1}", LENGTH, nearest_place(own, track, seconds, (0.0, 0.0)),
                 track, "fixed")


def crossing_jobs(scenario: PilotScenario, setting: Setting) -> list[Job]:
    """Returns one run per angle and ratio at which the two close. Its seed is ten times the angle plus the index of the
    ratio."""
    jobs = []
    for angle in ANGLES:
        for number, ratio in enumerate(RATIOS):
            track = Track((setting.track.course + angle) % 360, setting.track.speed * ratio)
            if math.dist(velocity(setting.track), velocity(track)) < SLOWEST:
                continue
            begin = begin_of(scenario, setting.track, 0, angle, ratio,
                             seconds_to_nearest(scenario, setting.track, track))
            jobs.append(Job(with_begins(setting, (begin,), f"crossing {angle} {ratio}"), angle * 10 + number))
    return jobs


def geometry_jobs(scenario: PilotScenario, setting: Setting) -> list[Job]:
    """Returns one run per geometry, numbered from 1; its seed is its number."""
    jobs = []
    for number, others in enumerate(GEOMETRIES, 1):
        tracks = [Track((setting.track.course + angle) % 360, setting.track.speed * ratio) for angle, ratio in others]
        seconds = max(seconds_to_nearest(scenario, setting.track, track) for track in tracks)
        begins = tuple(
            begin_of(scenario, setting.track, k, angle, ratio, seconds) for k, (angle, ratio) in enumerate(others))
        jobs.append(Job(with_begins(setting, begins, f"geometry {number:02}"), number))
    return jobs


def with_begins(setting: Setting, begins: tuple[Begin, ...], label: str) -> Setting:
    """Returns the setting with fixed others."""
    return replace(setting, begins=begins, label=label)
