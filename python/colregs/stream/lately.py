"""The last minutes of two vessels of a stream, in the form of a case, for computing marks (colregs/model/marks.py)."""
from array import array
from collections.abc import Iterable, Mapping

from colregs.model import lost, rest
from colregs.model.marks import MARGIN, Marks
from colregs.model.rows import Stretch, Verdict, Vessel
from colregs.model.tracks import AllPlaces, Places, Track
from colregs.stream.fleet import SPAN, About, Fleet


def shifted(track: Track, start: int) -> Track:
    """Returns a track with seconds after a start instead of those since the Unix epoch."""
    return Track(array("q", [at - start for at in track.times]), track.xs, track.ys, track.speeds, track.courses)


class Lately:
    """Two vessels of a fleet from 20 minutes before a stretch to its end. If the stretch is longer than the stored
    tracks, only its end counts."""

    def __init__(self, fleet: Fleet, tick: int, subject: int, other: int, first: int, last: int) -> None:
        self.tick, self.gap = tick, fleet.gap
        first = max(first, last - SPAN) // tick * tick
        self.start = first - 2 * MARGIN // tick * tick
        self.steps = max(1, -(-(last - self.start) // tick) + 2 * MARGIN // tick)
        begins, ends = first - self.start, max(first, last - tick) - self.start
        # marks do not depend on the rule
        self.row = Verdict(subject, other, "", "broken", begins // tick, ends // tick)
        self.tracks = {
            mmsi: shifted(fleet.ships[mmsi].track, self.start) for mmsi in (subject, other) if mmsi in fleet.ships
        }
        self.places: Mapping[int, Places] = AllPlaces(self.tracks, self.gap, tick, self.steps)
        self.vessels = {mmsi: vessel_of(mmsi, fleet.about.get(mmsi, About())) for mmsi in (subject, other)}

    def stretches(self) -> list[Stretch]:
        """Returns the only stretch."""
        return [self.row]

    def moment(self, step: int) -> int:
        """Returns the start of a step, in seconds since the Unix epoch."""
        return self.start + step * self.tick

    def rest(self, row: Stretch) -> str:
        """Returns which vessel is at rest in a stretch: `subject`, `other`, `both` or an empty text."""
        first, last = row.first * self.tick, (row.last + 1) * self.tick
        still = [mmsi in self.tracks and rest.at_rest(self.tracks[mmsi], first, last) for mmsi in row.pair]
        return rest.MARKS[still[0], still[1]]

    def lost(self, row: Stretch) -> lost.Lost | None:
        """Returns None: while a stretch is new, it is unknown whether contact will be lost."""
        return None


def vessel_of(mmsi: int, about: About) -> Vessel:
    """Returns a vessel in the form of a report's row."""
    return Vessel(mmsi, about.name, about.kind, about.length, None, None)


def marks_of(fleet: Fleet, tick: int, pair: tuple[int, int], first: int, last: int) -> tuple[str, list[str]]:
    """Returns which of two vessels is at rest between two times, and the marks of the stretch; an empty text and no
    marks if a vessel has no position."""
    if not all(mmsi in fleet.ships for mmsi in pair):
        return "", []
    lately = Lately(fleet, tick, pair[0], pair[1], first, last)
    statuses = {
        mmsi: [(0, about.status)] for mmsi in pair if (about := fleet.about.get(mmsi)) and about.status is not None
    }
    marks = Marks(lately, statuses)
    return lately.rest(lately.row), list(marks.of(lately.row, False))


def rest_of(fleet: Fleet, pair: Iterable[int], first: int, last: int) -> str:
    """Returns which of two vessels is at rest between two times. This is cheap; `marks_of` is not."""
    ships = [fleet.ships.get(mmsi) for mmsi in pair]
    still = [ship is not None and rest.at_rest(ship.track, max(first, last - SPAN), last) for ship in ships]
    return rest.MARKS[still[0], still[1]]
