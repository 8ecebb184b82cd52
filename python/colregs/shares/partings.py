"""Whether two vessels are known not to be engaged, by the accepted reports about a window's beginning: one of them is
not seen at a tick, or they are past and clear (docs/RULES.md), farther apart than the watch."""
import bisect
import math

from colregs.model.scenario import Scenario
from colregs.shares.results import Check

SPARE = 1.0             # m beyond the watch and the clear distance
LEAST = 0.01            # m that a distance has to grow in a step, far more than what rounding changes
Place = tuple[float, float]


class Way:
    """The ticks of a vessel, by her accepted reports."""

    def __init__(self, checks: list[Check], gap: int) -> None:
        self.gap, self.times = gap, [at for at, _ in checks]
        fields = (rest.split(",", 2) for _, rest in checks)
        self.places = [(int(x) / 10000, int(y) / 10000) for x, y, _ in fields]

    def place(self, at: int) -> Place | None:
        """Returns where she is at a time, in metres; None if she is not seen."""
        k = bisect.bisect_left(self.times, at)
        if k < len(self.times) and self.times[k] == at:
            joined = [near for near in (k - 1, k + 1) if 0 <= near < len(self.times) and self.is_leg(min(k, near))]
            return self.places[k] if joined else None
        if not 0 < k < len(self.times) or not self.is_leg(k - 1):
            return None
        (x, y), (east, north) = self.places[k - 1], self.places[k]
        part = (at - self.times[k - 1]) / (self.times[k] - self.times[k - 1])
        return x + part * (east - x), y + part * (north - y)

    def is_leg(self, k: int) -> bool:
        """Returns whether a report and the next one are joined."""
        return self.times[k + 1] - self.times[k] <= self.gap


def parted(one: list[Check], other: list[Check], bounds: tuple[int, int], scenario: Scenario) -> int | None:
    """Returns the first tick of a time at which two vessels are known not to be engaged, from the first to the last
    second of `bounds`; None if no tick shows it. The reports have to be all that are accepted within the gap around."""
    ways = Way(one, scenario.gap), Way(other, scenario.gap)
    before: Place | None = None
    for at in range(bounds[0], bounds[1] + 1, scenario.tick):
        first, second = (way.place(at) for way in ways)
        if first is None or second is None:
            return at
        apart = second[0] - first[0], second[1] - first[1]
        if before is not None and is_past(before, apart, scenario):
            return at
        before = apart
    return None


def is_past(apart: Place, then: Place, scenario: Scenario) -> bool:
    """Returns whether two vessels are past and clear in a step from one vector between them to the next."""
    far = math.hypot(*apart)
    along = apart[0] * (then[0] - apart[0]) + apart[1] * (then[1] - apart[1])
    return far > max(scenario.watch, scenario.clear) + SPARE and along > far * LEAST
