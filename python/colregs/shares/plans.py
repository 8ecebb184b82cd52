"""Makes the list of shares of a scenario and the files of an archive: overlapping windows, groups of subjects, and
tiles with a margin."""
import os
import subprocess
from collections.abc import Iterator
from dataclasses import dataclass
from typing import Any

from colregs.errors import Fault, report
from colregs.model.scenario import MOST_TICKS, Scenario
from colregs.run.pipes import reader
from colregs.shares.boxes import BoxPoints
from colregs.shares.cuts import Reads
from colregs.shares.cutter import Cut
from colregs.shares.heads import STRADDLE
from colregs.shares.index import Index
from colregs.shares.places import Points, tiles_of
from colregs.shares.reads import Window, reads_of
from colregs.shares.spans import Believed, Span, believed, clock_before
from colregs.shares.types import Types

# ticks: the windows begin at most this much before the first line, even if a scenario begins long before
SPARE = 1000
HEAD = 900                       # s of reports around a window's start that are stored in addition to twice the silence


@dataclass
class Wanted:
    """The options of a plan; None is the default."""

    start: int | None = None
    ticks: int | None = None
    every: int | None = None
    overlap: int | None = None
    group: int | None = None
    tiles: tuple[int, int] | None = None
    index: str | None = None


def windows_of(ticks: int, every: int, overlap: int) -> Iterator[tuple[int, int]]:
    """Yields the first tick and the length of windows of `every` ticks plus the overlap, up to the last tick."""
    begin = 0
    while True:
        length = min(every + overlap, ticks - begin)
        yield begin, length
        if begin + length >= ticks:
            return
        begin += every


def groups_of(vessels: list[int], size: int) -> list[list[int]]:
    """Returns groups of about equal size, at most `size` vessels each."""
    count = -(-len(vessels) // size)
    return [vessels[len(vessels) * k // count:len(vessels) * (k + 1) // count] for k in range(count)]


def lengths(wanted: Wanted, scenario: Scenario, ticks: int) -> tuple[int, int]:
    """Returns the ticks from a window's start to the next one's, and those of the overlap. By default both together are
    as long as a run allows, and the overlap is half of that."""
    every = wanted.every or MOST_TICKS // 2
    overlap = min(every, MOST_TICKS - every) if wanted.overlap is None else scenario.steps(wanted.overlap)
    if every + overlap > MOST_TICKS:
        raise Fault(f"a window of {every} ticks and an overlap of {overlap} exceed {MOST_TICKS} ticks: give fewer "
                    "--ticks-each, or a shorter --overlap")
    least = overlap_needed(scenario)
    if overlap < least and every < ticks:
        raise Fault(f"an overlap of {overlap * scenario.tick} s is too short for this scenario: give --overlap "
                    f"{least * scenario.tick} plus the longest meeting")
    return every, overlap


def overlap_needed(scenario: Scenario) -> int:
    """Returns the least overlap, in ticks, with which the join can compare windows."""
    return scenario.reach + 3 + scenario.steps(max(scenario.gap, STRADDLE))


@dataclass
class Plan:
    """A plan: the scenario, the spans of the files, the first second and the ticks of the whole, and the windows."""

    wanted: Wanted
    scenario: Scenario
    spans: list[Span]
    start: int
    ticks: int
    windows: list[tuple[int, int]]

    def lines(self, begin: int, length: int) -> tuple[int, int]:
        """Returns the window of lines of a window, in seconds."""
        at = self.start + begin * self.scenario.tick
        return at - self.scenario.gap, at + length * self.scenario.tick + self.scenario.gap

    def most_bytes(self) -> int:
        """Returns the bytes of lines of the largest window."""
        return max(
            sum(block.size
                for span in self.spans[slice(*self.files(*window))]
                for block in span.blocks
                if block.greatest >= self.lines(*window)[0] and block.least <= self.lines(*window)[1])
            for window in self.windows)

    def head(self, begin: int) -> list[int]:
        """Returns the span of time around a window's start for which accepted reports are stored."""
        first = self.lines(begin, 0)[0]
        return [first, first + 2 * max(self.scenario.gap, STRADDLE) + HEAD]

    def tail(self, begin: int, length: int) -> list[int]:
        """Returns the span of time about a window's last steps, which are not settled, for which accepted reports are
        stored."""
        return [self.lines(begin + self.scenario.settled(length), 0)[0], self.lines(begin, length)[1]]

    def files(self, begin: int, length: int) -> tuple[int, int]:
        """Returns the index of the first file that the window needs, and of the one after the last."""
        first, last = self.lines(begin, length)
        met = [k for k, span in enumerate(self.spans) if (bounds := span.bounds(last)) and bounds[1] >= first]
        if not met:
            return 0, 1                                         # no vessel reports, which its run then shows
        # lines before the first stamp get the time of the whole's start
        return met[0] if begin else 0, met[-1] + 1

    def reads(self, begin: int, length: int) -> Reads | None:
        """Returns the window's reads of its files; None if it must read all lines."""
        first, end = self.files(begin, length)
        whole = self.lines(0, self.ticks)
        found = reads_of(self.spans[first:end], Window(*self.lines(begin, length), *whole),
                         clock_before(self.spans, first, whole[1])[1])
        return None if found is None else [[list(read) for read in of_file] for of_file in found]

    def job(self, number: int) -> dict[str, Any]:
        """Returns the job of a window."""
        begin, length = self.windows[number]
        first, end = self.files(begin, length)
        whole = self.lines(0, self.ticks)
        told: dict[str, Any] = {
            "files": [span.path for span in self.spans[first:end]], "scenario": os.path.abspath(self.scenario.path),
            "start": self.start + begin * self.scenario.tick, "ticks": length,
            "sums": [span.sum for span in self.spans[first:end]], "whole": list(whole)
        }
        if len(self.windows) > 1:
            told["before"] = list(clock_before(self.spans, first, whole[1]))
            told["reads"] = self.reads(begin, length)
            told["heads"] = [
                self.head(one) for k, (one, _) in enumerate(self.windows) if k and begin <= one < begin + length
            ]
            told["tails"] = [
                self.tail(*one) for one in self.windows[:-1] if begin < sum(one) <= begin + length
            ]
        return told


def plan(files: list[str], wanted: Wanted, scenario: Scenario, program: str | None) -> Iterator[dict[str, Any]]:
    """Yields the jobs as dictionaries. Groups and tiles need the program."""
    made = laid_out(files, wanted, scenario)
    types = read_types(made) if scenario.ranks and len(made.windows) > 1 else None
    points: Points | BoxPoints | None = None
    for number, (begin, length) in enumerate(made.windows):
        told = made.job(number)
        if types is not None:
            before = types.before(*made.lines(begin, length))
            told |= {
                "types": {str(mmsi): kind
                          for mmsi, kind in sorted(before.types.items())}, "unsure": sorted(before.unsure)
            }
        if wanted.group or wanted.tiles:
            if points is None or told["start"] + length * scenario.tick > points.until:
                points = (None if wanted.group else box_points(made, begin)) or read_points(made, begin, program or "")
            yield from shares_of(told, points, made.lines(begin, length), scenario, wanted)
        else:
            yield told


def laid_out(files: list[str], wanted: Wanted, scenario: Scenario) -> Plan:
    """Returns the plan of windows: from the first to the last believed stamp, unless the options say otherwise."""
    start = scenario.start if wanted.start is None else wanted.start
    until = None if wanted.ticks is None else start + wanted.ticks * scenario.tick + scenario.gap
    index = Index(wanted.index)
    spans = [index.span(os.path.abspath(name), until) for name in files]
    ticks = wanted.ticks
    if ticks is None:
        known = believed(spans, start)
        if wanted.start is None:
            start += max(0, known.first - scenario.gap - start) // scenario.tick // SPARE * SPARE * scenario.tick
        ticks = max(1, scenario.steps(known.last - start))
        tell_outside(known, spans, start - scenario.gap)
    every, overlap = lengths(wanted, scenario, ticks)
    made = Plan(wanted, scenario, spans, start, ticks, list(windows_of(ticks, every, overlap)))
    while wanted.every is None and len(
            made.windows) > 1 and made.most_bytes() > scenario.most_bytes and every // 2 > overlap_needed(scenario):
        every, overlap = every // 2, min(overlap, every // 2)
        made.windows = list(windows_of(ticks, every, overlap))
    return made


def tell_outside(known: Believed, spans: list[Span], first: int) -> None:
    """Reports which lines the windows leave out."""
    if known.outside:
        report("many", f"{known.outside} lines have a time more than a day before or after all others, such as "
                       f"{known.farthest}; the windows leave them out; --start and --ticks set other windows")
    early = sum(count for span in spans for count, least, greatest in span.hours.values()
                if known.first <= least and greatest < first)
    if early:
        report("many", f"{early} lines are before the start and are not audited; --start sets an earlier one")


def read_types(made: Plan) -> Types:
    """Reads the files for the ship types that were reported before each window."""
    begin, end = made.lines(0, made.ticks)
    types = Types(begin, end, made.scenario.slack, [made.lines(first, length)[0] for first, length in made.windows])
    with subprocess.Popen(["bash", "-c", reader([span.path for span in made.spans])], stdout=subprocess.PIPE) as log:
        if log.stdout:
            types.take(log.stdout)
    if log.returncode:
        raise Fault("cannot read the files to their end")
    return types


def read_points(made: Plan, begin: int, program: str) -> Points:
    """Reads the points from a window's start, for as many ticks as a run allows."""
    length = min(MOST_TICKS, made.ticks - begin)
    first, end = made.files(begin, length)
    whole = made.lines(0, made.ticks)
    cut = Cut(*made.lines(begin, length), *whole, made.scenario.slack, *clock_before(made.spans, first, whole[1]))
    window = made.start + begin * made.scenario.tick, length
    return Points([span.path for span in made.spans[first:end]], made.scenario, cut, window, program,
                  made.reads(begin, length))


def box_points(made: Plan, begin: int) -> BoxPoints | None:
    """Returns the places from a window on by the boxes of the files; None if a file has none."""
    length = min(MOST_TICKS, made.ticks - begin)
    first, end = made.files(begin, length)
    index = Index(made.wanted.index)
    parts = [index.parts(span) for span in made.spans[first:end]]
    files = [part for part in parts if part is not None]
    until = made.start + (begin + length) * made.scenario.tick
    # no line before the first of these files is one of the window's
    return BoxPoints(files, made.scenario, made.lines(0, made.ticks), until) if len(files) == len(parts) else None


def shares_of(told: dict[str, Any], points: Points | BoxPoints, lines: tuple[int, int], scenario: Scenario,
              wanted: Wanted) -> Iterator[dict[str, Any]]:
    """Yields a window's jobs, split by tiles and by groups if these are requested."""
    heard, margin = points.within(*lines), scenario.watch + 1
    tiles: list[Any] = list(tiles_of(points, *wanted.tiles)) if wanted.tiles else [None]
    for tile in tiles:
        more: dict[str, Any] = {}
        near = heard
        if tile is not None:
            near = points.near(heard, tile, lines, margin)
            more = {"tile": tile, "margin": margin, "vessels": near}
            # a tile without vessels stays in the list, so that the tiles cover the plane
            near = near or heard[:1]
        subjects = sorted(scenario.subjects) if scenario.subjects else near
        groups: list[Any] = list(groups_of(subjects, wanted.group)) if wanted.group and subjects else [None]
        for group in groups:
            yield {**told, **more, **({"subjects": group} if group else {})}
