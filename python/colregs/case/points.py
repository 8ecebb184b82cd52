"""The accepted reports of a case, as one report of `points`: by several runs if there are more ticks or more vessels
than a run takes.

Runs over a part of the window begin earlier than that part, so that each accepts what one run would: what is accepted
depends on the report before.
"""
import os
import tempfile
from collections.abc import Iterator

from colregs.case.audit import Place
from colregs.errors import Fault
from colregs.io.tag_blocks import LATEST
from colregs.model.scenario import MOST_TICKS, Scenario
from colregs.run.limits import STATUS
from colregs.run.program import Run, report_of, window_options
from colregs.shares.cutter import Cut
from colregs.shares.cuts import write_cut

PARTS = (4, 16, 64)         # parts of the vessels that are tried if they are too many for one run
BEFORE = 3600               # s that a run over a part of the window begins earlier, besides twice the gap


def points(place: Place) -> str:
    """Returns the report of `points` of the whole window."""
    scenario = Scenario(place.path(place.scenario))
    start = scenario.start if place.start is None else place.start
    ticks = scenario.ticks if place.ticks is None else place.ticks
    if ticks > MOST_TICKS:
        return "".join(line + "\n" for line in by_windows(place, scenario, start, ticks))
    done = Run(place.program, "points", place.path(place.scenario), place.path(place.log),
               window_options(place.start, place.ticks))
    if done.status == STATUS and "vessels" in done.words:
        return by_vessels(place, scenario, start, ticks)
    if done.status:
        raise done.fault("points")
    return done.text.decode()


def by_windows(place: Place, scenario: Scenario, start: int, ticks: int) -> Iterator[str]:
    """Yields the points of a window that is longer than a run takes, without counts of lines, which would overlap."""
    warm = scenario.steps(2 * scenario.gap + BEFORE)
    every = MOST_TICKS - 2 * warm
    if every < warm:
        raise Fault(f"a window of {ticks} ticks is too long for `log.gap = {scenario.gap}`: give a longer tick, or a "
                    "shorter time by --from and --to")
    for first in range(0, ticks, every):
        begin = max(0, first - warm)
        length = min(ticks, first + every) - begin
        text = report_of(place.program, "points", place.path(place.scenario), place.path(place.log),
                         options=window_options(start + begin * scenario.tick, length))
        low = start + first * scenario.tick if first else 0
        high = start + (first + every) * scenario.tick if first + every < ticks else LATEST + 1
        yield from (line for line in text.split("\n")
                    if line.startswith("point,") and low <= int(line.split(",", 3)[2]) < high)


def by_vessels(place: Place, scenario: Scenario, start: int, ticks: int) -> str:
    """Returns the points of more vessels than a run takes, from runs over the lines of a part of them, without counts
    of lines."""
    for count in PARTS:
        rows = [part_rows(place, scenario, (start, ticks), (k, count)) for k in range(count)]
        whole = [lines for lines in rows if lines is not None]
        if len(whole) == count:
            every = sorted((line for lines in whole for line in lines), key=lambda line: int(line.split(",", 3)[2]))
            return "".join(line + "\n" for line in every)
    raise Fault("there are too many vessels: give a smaller --area, or a shorter time by --from and --to")


def part_rows(place: Place, scenario: Scenario, window: tuple[int, int], part: tuple[int, int]) -> list[str] | None:
    """Returns the points of a part of the vessels, or None if they are still too many."""
    first, last = window[0] - scenario.gap, window[0] + window[1] * scenario.tick + scenario.gap
    with tempfile.TemporaryDirectory(dir=place.folder, prefix=".points-") as room:
        log = os.path.join(room, "log")
        write_cut([place.path(place.log)], Cut(first, last, first, last, scenario.slack, part=part), room, log,
                  "`points` of the log")
        done = Run(place.program, "points", place.path(place.scenario), log, window_options(*window))
    if done.status == STATUS and "vessels" in done.words:
        return None
    if done.status:
        raise done.fault("points")
    return [line for line in done.text.decode().split("\n") if line.startswith("point,")]
