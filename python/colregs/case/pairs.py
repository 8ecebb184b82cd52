"""Which vessels of a case come near to each other, who lies still all the time, and groups of subjects whose pairs one
run takes.

Pairs are counted at moments that are at most five minutes apart, so two vessels that are near for less may be missed.
The counts only plan groups, which split themselves if they are too large, and say how many pairs were left out.
"""
import collections
from collections.abc import Iterable, Iterator

from colregs.model.reports import Case
from colregs.model.scenario import MOST_SUBJECTS
from colregs.model.tracks import Place

EVERY, LEAST_SAMPLES = 300, 200         # s between the moments, and the fewest moments
ROOM = 1700                             # unordered pairs that a group is planned for: a run takes 4096 ordered ones
Pair = tuple[int, int]
Cells = dict[tuple[int, int], list[tuple[float, float, int]]]


def cells_at(case: Case, step: int, size: float) -> Cells:
    """Returns the vessels that are seen at a tick, by the cells of a grid."""
    cells: Cells = collections.defaultdict(list)
    for mmsi, places in case.places.items():
        place: Place | None = places[step]
        if place:
            cells[int(place[0] // size), int(place[1] // size)].append((*place, mmsi))
    return cells


def near_in(cells: Cells, watch: float) -> Iterator[Pair]:
    """Yields the pairs within a distance, the lower MMSI first; the cells have this side."""
    for (a, b), here in cells.items():
        around = [entry for i in (-1, 0, 1) for j in (-1, 0, 1) for entry in cells.get((a + i, b + j), ())]
        for x, y, mmsi in here:
            yield from ((mmsi, other)
                        for u, v, other in around
                        if mmsi < other and (x - u)**2 + (y - v)**2 <= watch * watch)


def near_pairs(case: Case, watch: float) -> set[Pair]:
    """Returns the pairs that come within a distance of each other."""
    every = max(1, min(EVERY // case.tick, case.steps // LEAST_SAMPLES))
    found: set[Pair] = set()
    for step in range(0, case.steps + 1, every):
        found.update(near_in(cells_at(case, step, watch), watch))
    return found


def still(case: Case) -> set[int]:
    """Returns the vessels that never make half a knot in the window, by their own reports."""
    return {mmsi for mmsi in case.tracks if case.lies_still(mmsi, 0, case.steps * case.tick)}


def groups(case: Case, subjects: Iterable[int], pairs: set[Pair]) -> list[list[int]]:
    """Returns groups of subjects whose pairs one run takes, as far as they were counted; vessels of one time are in one
    group."""
    near: dict[int, set[int]] = collections.defaultdict(set)
    for one, other in pairs:
        near[one].add(other)
        near[other].add(one)
    order = sorted(
        subjects, key=lambda mmsi: (sum(case.tracks[mmsi].times[k] for k in (0, -1))
                                    if mmsi in case.tracks else 0, mmsi))
    found: list[list[int]] = []
    count = 0
    for mmsi in order:
        more = len(near[mmsi].difference(found[-1] if found else ()))
        if not found or count + more > ROOM or len(found[-1]) >= MOST_SUBJECTS:
            found.append([])
            count, more = 0, len(near[mmsi])
        found[-1].append(mmsi)
        count += more
    return [sorted(group) for group in found]
