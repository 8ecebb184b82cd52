"""Marks on meetings and verdicts that help to recognise a false alarm. Each has its test in words; nothing is dropped,
and no row of the report changes."""
import bisect
import math
from collections.abc import Iterator, Mapping, Sequence
from dataclasses import dataclass
from typing import Protocol

from colregs.model import ships
from colregs.model.lost import Lost
from colregs.model.rows import Stretch, Vessel
from colregs.model.tracks import Places

KNOT = 1852 / 3600              # metres per second
LIKE = KNOT                     # velocities that differ by less are like
BESIDE, BESIDE_TIME = 50, 120   # m and s
TOW, TOW_TIME, TURN = 400, 600, 15      # m, s and degrees
MARGIN = 600                    # s before and after a stretch in which two vessels may lie alongside or tow
TESTS = {
    "at rest": "a vessel never makes half a knot in the stretch, by her own reports",
    "alongside": f"the two are within {BESIDE} m of each other, with velocities that differ by less than a knot, for "
                 "over two minutes at most ten minutes "
                 "before or after the stretch",
    "in tow or escort": f"the two are within {TOW} m of each other, make way on courses within {TURN} degrees, with "
                        "velocities that differ by less than a "
                        "knot, for over ten minutes that overlap the stretch or lie at most ten minutes from it",
    "fishing": "a vessel reports the status `engaged in fishing` or the type `fishing`",
    "pilot": "a vessel is a pilot vessel by her type",
    "contact lost": "the meeting ends because a vessel is no longer heard",
}
Pair = tuple[int, int]


class Window(Protocol):
    """What marks need of a case, or of the last minutes of a stream."""

    @property
    def tick(self) -> int:
        """Returns the seconds of a step."""

    @property
    def steps(self) -> int:
        """Returns how many steps the window has."""

    @property
    def vessels(self) -> Mapping[int, Vessel]:
        """Returns what is known of each vessel."""

    @property
    def places(self) -> Mapping[int, Places]:
        """Returns each vessel's places at the ticks."""

    def stretches(self) -> Sequence[Stretch]:
        """Returns the meetings and verdicts."""

    def moment(self, step: int) -> int:
        """Returns when a step begins, in seconds since the Unix epoch."""

    def rest(self, row: Stretch) -> str:
        """Returns who lies still in a stretch: `subject`, `other`, `both` or nobody."""

    def lost(self, row: Stretch) -> Lost | None:
        """Returns how a meeting ends if one of the two is no longer heard."""


@dataclass(frozen=True, slots=True)
class Together:
    """The times at which two vessels lie alongside or tow, in ticks of the window: first and last of each."""

    alongside: tuple[tuple[int, int], ...]
    towing: tuple[tuple[int, int], ...]


def runs(flags: list[bool], first: int, least: int) -> tuple[tuple[int, int], ...]:
    """Returns the first and last tick of each run of more than `least` true flags; the first flag is of the tick
    `first`."""
    found, begin = [], None
    for k, flag in enumerate([*flags, False]):
        if flag and begin is None:
            begin = k
        elif not flag and begin is not None:
            if k - begin > least:
                found.append((first + begin, first + k))
            begin = None
    return tuple(found)


class Marks:
    """Computes the marks of a case's meetings and verdicts."""

    def __init__(self, case: Window, statuses: dict[int, ships.Changes]) -> None:
        self.case, self.statuses = case, statuses
        self.margin = -(-MARGIN // case.tick)
        self.spans: dict[Pair, tuple[int, int]] = {}
        for row in case.stretches():
            low, high = self.spans.get(row.both, (row.first, row.last))
            self.spans[row.both] = min(low, row.first), max(high, row.last)
        self.known: dict[Pair, Together] = {}

    def status(self, mmsi: int, step: int) -> int | None:
        """Returns the status that a vessel reported last before a step ends, or None."""
        changes = self.statuses.get(mmsi, [])
        k = bisect.bisect_right(changes, (self.case.moment(step + 1), 99)) - 1
        return changes[k][1] if k >= 0 else None

    def words(self, mmsi: int, step: int) -> str:
        """Returns a vessel's type and her status at a step in words, separated by a comma."""
        vessel = self.case.vessels.get(mmsi)
        kind = ships.type_words(vessel.ship_type) if vessel else ""
        return ", ".join(filter(None, (kind, ships.status_words(self.status(mmsi, step)))))

    def is_fishing(self, mmsi: int, step: int) -> bool:
        """Returns whether a vessel fishes, by her status or type."""
        vessel = self.case.vessels.get(mmsi)
        by_type = vessel is not None and vessel.ship_type == ships.FISHING
        return by_type or self.status(mmsi, step) == ships.FISHING_STATUS

    def is_pilot(self, mmsi: int) -> bool:
        """Returns whether a vessel is a pilot vessel by her type."""
        vessel = self.case.vessels.get(mmsi)
        return vessel is not None and vessel.ship_type == ships.PILOT

    def together(self, row: Stretch) -> Together:
        """Returns when the two vessels of a row lie alongside or tow."""
        key = row.both
        if key not in self.known:
            low, high = self.spans[key]
            first, last = max(0, low - self.margin - self.margin), min(self.case.steps - 1, high + 2 * self.margin)
            beside, towed = [], []
            for step in range(first, last + 1):
                near, like, ahead = self.motion(key, step)
                beside.append(like and near < BESIDE)
                towed.append(like and ahead and near < TOW)
            self.known[key] = Together(runs(beside, first, BESIDE_TIME // self.case.tick),
                                       runs(towed, first, TOW_TIME // self.case.tick))
        return self.known[key]

    def motion(self, pair: Pair, step: int) -> tuple[float, bool, bool]:
        """Returns how far apart two vessels are at a step, whether their velocities are alike, and whether both make
        way on like courses; infinity if they are too far apart for any mark."""
        one, two = (self.case.places[mmsi] for mmsi in pair)
        a, c = one[step], two[step]
        if not (a and c) or math.dist(a, c) >= TOW:
            return math.inf, False, False
        b, d = one[step + 1], two[step + 1]
        if not (b and d):
            return math.inf, False, False
        u, v, w, z = b[0] - a[0], b[1] - a[1], d[0] - c[0], d[1] - c[1]
        like = math.hypot(u - w, v - z) < LIKE * self.case.tick
        speeds = math.hypot(u, v), math.hypot(w, z)
        way = min(speeds) > KNOT * self.case.tick
        return math.dist(a, c), like, way and u * w + v * z > math.cos(math.radians(TURN)) * speeds[0] * speeds[1]

    def overlaps(self, spans: tuple[tuple[int, int], ...], row: Stretch) -> bool:
        """Returns whether a span overlaps a row or lies near to it."""
        return any(first <= row.last + self.margin and row.first - self.margin <= last for first, last in spans)

    def of(self, row: Stretch, is_meeting: bool = True) -> Iterator[str]:
        """Yields the marks of a row, in the order of `TESTS`."""
        case, together = self.case, self.together(row)
        if case.rest(row):
            yield "at rest"
        if self.overlaps(together.alongside, row):
            yield "alongside"
        if self.overlaps(together.towing, row):
            yield "in tow or escort"
        if any(self.is_fishing(mmsi, row.last) for mmsi in row.pair):
            yield "fishing"
        if any(map(self.is_pilot, row.pair)):
            yield "pilot"
        if is_meeting and case.lost(row):
            yield "contact lost"
