"""Which vessels lie still in a stretch: those that never make half a knot in it, by their own reports.

The audit knows no navigational status, so it judges a vessel at anchor like any other (docs/INVESTIGATOR.md). Her rows
are marked, and none is dropped. If a report has no speed, it is derived from the distance to the next report.
"""
import math

from colregs.model.tracks import NONE, Track

SLOWEST = 5             # 1/10 knot
TENTH = 463 / 9000      # metres per second in 1/10 knot
MARKS = {(True, True): "both", (True, False): "subject", (False, True): "other", (False, False): ""}


def speed(track: Track, k: int) -> float | None:
    """Returns the speed at report `k` in 1/10 knot, or None if neither this report nor a next one has it."""
    if track.speeds[k] != NONE:
        return track.speeds[k]
    if k + 1 == len(track.times):
        return None
    way = math.dist((track.xs[k], track.ys[k]), (track.xs[k + 1], track.ys[k + 1]))
    return way / (track.times[k + 1] - track.times[k]) / TENTH


def at_rest(track: Track, first: int, last: int) -> bool:
    """Returns whether the vessel never makes half a knot between two times, by her reports from the last one before to
    the last one within."""
    reports = track.between(first, last)
    made = [speed(track, k) for k in reports if track.times[k] <= last]
    return bool(made) and all(value is not None and value < SLOWEST for value in made)
