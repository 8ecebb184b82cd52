"""The current encounters: their kinds for both vessels from the program's last answer, and the distance of the two.

This module computes the distance, the closest point of approach and the time to it from the newest accepted reports.
They are not rows of the program, and not proved.
"""
import math
from collections.abc import Iterable
from dataclasses import dataclass, field
from typing import Any

from colregs.model import lost
from colregs.model.rows import Meeting, row_of
from colregs.model.rules import ENCOUNTERS
from colregs.model.tracks import Track
from colregs.stream.fleet import Fleet
from colregs.stream.lately import rest_of
from colregs.stream.stretches import AGAIN, BOTH

DUTIES = {
    "overtaking": "Rule 13: keeps out of the way",
    "overtaken": "Rule 17: stands on",
    "head_on": "Rule 14: alters to starboard",
    "crossing_gives": "Rules 15 and 16: gives way",
    "crossing_stands": "Rule 17: stands on",
    "passing": "no duty from the geometry",
    "unclassified": "not classified: Rule 8 alone",
}
RANKS = "; ranks count (Rule 18)"
BEHIND = 2                      # a meeting is current if it ends at most this many steps before the last common report
Pair = tuple[int, int]


@dataclass
class Encounter:
    """An encounter of two vessels: its start, its kind for each, and the least distance so far in metres."""

    pair: Pair
    first: int
    last: int
    least: float
    kinds: dict[int, str] = field(default_factory=dict)


def name_of(pair: Pair) -> str:
    """Returns the name of an encounter."""
    return f"{pair[0]}-{pair[1]}"


def lasts(fleet: Fleet, pair: Pair, end: int, tick: int) -> bool:
    """Returns whether a meeting whose row ends at a time is still current: the two have no later common report."""
    ships = [fleet.ships.get(mmsi) for mmsi in pair]
    return all(ship is not None and end + BEHIND * tick >= min(one.latest for one in ships if one) for ship in ships)


def encounters_of(fleet: Fleet, meetings: Iterable[Meeting], start: int, tick: int) -> dict[Pair, Encounter]:
    """Returns the current encounters among the meetings of an answer whose window begins at a time."""
    found: dict[Pair, Encounter] = {}
    for row in meetings:
        pair, first, last = row.both, start + row.first * tick, start + (row.last + 1) * tick
        if lasts(fleet, pair, last, tick):
            known = found.setdefault(pair, Encounter(pair, first, last, row.least))
            known.kinds[row.subject] = row.encounter
            known.first, known.last, known.least = min(known.first, first), max(known.last,
                                                                                last), min(known.least, row.least)
    return found


def distance_now(one: Track, two: Track, clock: int, gap: int) -> float | None:
    """Returns the distance of two vessels now, assuming that both keep the course and speed of their last reports; None
    if these are unknown."""
    places = []
    for track in (one, two):
        way = lost.velocity(track, len(track.times) - 1, gap)
        if way is None:
            return None
        passed = max(0, min(gap, clock - track.times[-1]))
        places.append((track.xs[-1] + way[0] * passed, track.ys[-1] + way[1] * passed))
    return math.dist(*places)


class Encounters:
    """The current encounters, and the values of each that were sent last."""

    def __init__(self, fleet: Fleet, tick: int, ranks: bool) -> None:
        self.fleet, self.tick, self.ranks = fleet, tick, ranks
        self.known: dict[Pair, Encounter] = {}
        self.sent: dict[str, dict[str, Any]] = {}
        self.looked_at = 0              # the clock when the encounters of vessels at rest were last computed

    def answer(self, meetings: Iterable[Meeting], start: int) -> None:
        """Handles the meetings of an answer."""
        self.known = encounters_of(self.fleet, meetings, start, self.tick)

    def values(self, one: Encounter, clock: int) -> dict[str, Any]:
        """Returns an encounter in the form of the page and the API."""
        ships = [self.fleet.ships.get(mmsi) for mmsi in one.pair]
        tracks = [ship.track for ship in ships if ship]
        near = distance = None
        if len(tracks) == 2:
            near = lost.nearest_ahead(tracks[0], tracks[1], clock, self.fleet.gap)
            distance = distance_now(tracks[0], tracks[1], clock, self.fleet.gap)
        kinds = [one.kinds.get(mmsi, "") for mmsi in one.pair]
        return {
            "id": name_of(one.pair), "pair": list(one.pair), "names": [
                self.fleet.name(mmsi) for mmsi in one.pair
            ], "kinds": [ENCOUNTERS.get(kind, kind) for kind in kinds], "duties": [
                DUTIES[kind] + (RANKS if self.ranks else "") if kind in DUTIES else "" for kind in kinds
            ], "first": one.first, "least": round(one.least), "distance": None if distance is None else round(distance),
            "closest": round(near.least) if near else None, "closest_at": round(near.at) if near else None,
            "at_rest": rest_of(self.fleet, one.pair, one.first, one.last)
        }

    def rested(self, one: Encounter, clock: int) -> dict[str, Any] | None:
        """Returns the values that were sent last if both vessels are at rest and the values are recent; otherwise None.
        Such encounters are many and hidden, so they are computed less often."""
        sent = self.sent.get(name_of(one.pair))
        is_lately = self.looked_at <= clock < self.looked_at + AGAIN
        return sent if sent and sent["at_rest"] == BOTH and is_lately else None

    def settled(self, pair: Pair, rows: Iterable[dict[str, Any]], clock: int) -> dict[str, Any]:
        """Returns the encounter that settled rows of the stream describe, at a time."""
        found: Encounter | None = None
        for row in rows:
            start, told = int(row["run"]), row_of(str(row["row"]).split(","))
            if isinstance(told, Meeting):
                found = found or Encounter(pair, start + told.first * self.tick, start +
                                           (told.last + 1) * self.tick, told.least)
                found.kinds[told.subject] = told.encounter
        return self.values(found or Encounter(pair, clock, clock, 0), clock)

    def all_values(self, clock: int) -> list[dict[str, Any]]:
        """Returns all current encounters."""
        return [self.values(one, clock) for one in self.known.values()]

    def changes(self, clock: int) -> tuple[list[dict[str, Any]], list[str]]:
        """Returns the encounters that changed since they were sent last, and the names of those that are over."""
        now = {name_of(one.pair): self.rested(one, clock) or self.values(one, clock) for one in self.known.values()}
        if not self.looked_at <= clock < self.looked_at + AGAIN:
            self.looked_at = clock
        changed = [value for name, value in now.items() if self.sent.get(name) != value]
        gone = [name for name in self.sent if name not in now]
        self.sent = now
        return changed, gone
