"""Joins the reports of shares to the rows of one run: groups of subjects, then tiles, then windows, one after the
other.

docs/TRAFFIC_SERVICE.md says which rows of each share count, and which rows get a mark. The join raises Fault if shares
leave a gap, or contradict each other. Tests (python/tests/test_joins.py) show that unmarked rows are those of one run;
this rests on the laws of shares and is not proved.
"""
import csv
import io
from collections.abc import Iterator
from dataclasses import dataclass, field

from colregs.errors import Fault
from colregs.model.earth import iso
from colregs.model.scenario import Scenario
from colregs.shares.jobs import Job, Kept
from colregs.shares.results import Rows, Stretch, of_window, rows_of
from colregs.shares.windows import Doubt, Joining, Window

DOUBTS = "mark,subject,other,begins,ends,reason"
MOORED = "subject,other,first,last,least"


@dataclass
class Summary:
    """The findings of a join in addition to its rows: doubts, meetings of vessels at rest, and the number of rows per
    mark."""

    doubts: list[Doubt] = field(default_factory=list)
    moored: list[str] = field(default_factory=list)
    rows: int = 0
    marked: dict[str, int] = field(default_factory=dict)
    under_way: int = 0              # rows in which at least one vessel is under way
    marked_under_way: int = 0

    def count(self, row: Stretch) -> None:
        """Counts a written row."""
        self.rows += 1
        if row.mark:
            self.marked[row.mark] = self.marked.get(row.mark, 0) + 1
        if not row.moored:
            self.under_way += 1
            self.marked_under_way += bool(row.mark)
        elif row.is_meeting:
            self.moored.append(f"{row.pair[0]},{row.pair[1]},{row.first},{row.last},{row.least}")

    def doubts_text(self) -> str:
        """Returns the text of the file of doubts."""
        out = io.StringIO()
        table = csv.writer(out, lineterminator="\n")
        for doubt in sorted(self.doubts):
            table.writerow(
                [doubt.mark, doubt.subject or "", doubt.other or "", iso(doubt.first), iso(doubt.last), doubt.reason]
            )
        return DOUBTS + "\n" + out.getvalue()

    def moored_text(self) -> str:
        """Returns the text of the file of meetings in which both vessels are at rest in all windows of the meeting."""
        return "".join(line + "\n" for line in [MOORED, *self.moored])


@dataclass
class Known:
    """The static data that vessels sent in the windows so far."""

    told: dict[int, list[str]] = field(default_factory=dict)

    def take(self, rows: Rows) -> None:
        """Adds the vessels of a window; data that is not repeated stays."""
        for mmsi, line in rows.vessels.items():
            said = line.split(",", 2)[2].rsplit(",", 4)[:3]
            known = self.told.get(mmsi, ["", "0", "0"])
            self.told[mmsi] = [new if new not in ("", "0") else old for new, old in zip(said, known)]

    def lines(self) -> list[str]:
        """Returns the vessels' rows without counts, because the counts of windows overlap."""
        return [f"vessel,{mmsi},{','.join(self.told[mmsi])},," for mmsi in sorted(self.told)]


def windows_of(jobs: list[Job]) -> list[tuple[tuple[int, int], list[Job]]]:
    """Returns the jobs by their windows, in the order of their starts."""
    found: dict[tuple[int, int], list[Job]] = {}
    for job in jobs:
        found.setdefault(job.window(), []).append(job)
    return sorted(found.items())


def check_list(jobs: list[Job], scenario: Scenario) -> None:
    """Refuses a list of several windows without the data that ties them together."""
    base = min(job.start for job in jobs)
    if any((job.start - base) % scenario.tick for job in jobs):
        raise Fault("the windows do not share their ticks: plan them together")
    if len({tuple(job.whole) if job.whole else None for job in jobs}) > 1 or any(job.whole is None for job in jobs):
        raise Fault("the windows have no common `whole`, which the join needs: make the list with `plan`")
    whole = jobs[0].whole or [0, 0]
    begins, ends = base - scenario.gap, max(job.lines(scenario)[1] for job in jobs)
    if (begins, ends) != tuple(whole):
        raise Fault(f"the windows do not cover the whole: they read from {begins} to {ends}, but the whole is from "
                    f"{whole[0]} to {whole[1]}")


def read_window(shares: list[Job], kept: Kept, scenario: Scenario, rules: list[str]) -> Rows:
    """Returns the rows of all shares of a window. Raises Fault if their rules differ from those of earlier windows."""
    rows = of_window([(job, rows_of(kept.result(job))) for job in shares], scenario,
                     f"the window from {shares[0].start}")
    if not rules:
        rules += rows.rules
    if rows.rules != rules:
        raise Fault("the shares have different rules")
    return rows


def joined(jobs: list[Job], kept: Kept, scenario: Scenario, summary: Summary) -> Iterator[str]:
    """Yields the joined report's lines. It has at most two windows in memory."""
    windows, rules = windows_of(jobs), list[str]()
    if len(windows) == 1:
        rows = read_window(windows[0][1], kept, scenario, rules)
        for row in rows.stretches:
            summary.rows += 1
            yield row.words()
        yield from (line for _, line in sorted(rows.vessels.items()))
        yield from rows.lines
        return
    check_list(jobs, scenario)
    known, joining, base = Known(), None, windows[0][0][0]
    last = max((start - base) // scenario.tick + ticks for (start, ticks), _ in windows)
    for (start, ticks), shares in windows:
        rows = read_window(shares, kept, scenario, rules)
        known.take(rows)
        joining = joining or Joining(scenario, rules)
        yield from written(joining.take(window_of(start, ticks, base, last, shares[0], rows, scenario)), summary)
    if joining:
        yield from written(joining.finish(), summary)
        summary.doubts = joining.doubts
    yield from known.lines()


def window_of(start: int, ticks: int, base: int, last: int, job: Job, rows: Rows, scenario: Scenario) -> Window:
    """Returns a window with its steps counted from the first window's start."""
    first = (start - base) // scenario.tick
    end = first + ticks
    head = next((head[1] for head in job.heads if head[0] == start - scenario.gap), None)
    tail = next((tail[0] for tail in job.tails if tail[1] == start + ticks * scenario.tick + scenario.gap), None)
    for name, span, is_needed in (("heads", head, first > 0), ("tails", tail, end < last)):
        if is_needed and span is None:
            raise Fault(f"{job.words()} has no `{name}`, which the join needs to compare windows: make the list with "
                        "`plan`")
    for row in rows.stretches:
        row.first, row.last = row.first + first, row.last + first
    return Window(start, first, end, end if end >= last else first + scenario.settled(ticks), head or start,
                  tail or start, rows)


def written(rows: list[Stretch], summary: Summary) -> Iterator[str]:
    for row in rows:
        summary.count(row)
        yield row.words()
