"""Audits a case whole. One run of the program does if it takes all pairs; otherwise shares do, whose reports are joined
(docs/TRAFFIC_SERVICE.md).

Unless all pairs are asked for, those of two vessels that both lie still through the whole window are left out, and
counted.
"""
import json
import os
import tempfile
from collections.abc import Iterable, Iterator
from dataclasses import dataclass, field
from typing import Any

from colregs.case import pairs
from colregs.case.progress import Bar
from colregs.errors import Fault, reason
from colregs.model.reports import Case
from colregs.model.scenario import MOST_SUBJECTS, MOST_TICKS, Scenario
from colregs.run.limits import STATUS
from colregs.run.program import Run, window_options
from colregs.shares import join, plans, runs
from colregs.shares.jobs import Job, Kept, job_of
from colregs.words import count

JOBS, SCENARIO = "shares.jobs", "shares.toml"       # the files of a case that was audited by shares
MOST_PAIRS, MOST_VESSELS = 4096, 4000               # ordered pairs of a run; vessels of a tile, for a run takes 4096
# rows and columns that are tried if there are more vessels than a run takes
TILES = (2, 4, 8)
NOBODY = 799999999                                  # a subject of a tile in which nobody makes way


@dataclass(frozen=True)
class Place:
    """Where a case is audited: its folder with log and scenario, the program, the window if it is not the scenario's,
    and how many runs at a time."""

    folder: str
    log: str
    scenario: str
    program: str
    start: int | None
    ticks: int | None
    jobs: int

    def path(self, name: str) -> str:
        """Returns the path of a file of the case."""
        return os.path.join(self.folder, name)


@dataclass
class Audited:
    """A report, and how it was made: the number of shares, the still vessels and the pairs of them that were left out,
    and rows with a mark."""

    text: str
    shares: int = 0
    still: int = 0
    left_out: int = 0
    marked: int = 0
    doubts: list[str] = field(default_factory=list)

    def words(self) -> Iterator[str]:
        """Yields what was audited by shares, and what was left out because vessels lie still."""
        if self.left_out:
            yield (f"Left out: {count(self.left_out, 'pair')} of the {count(self.still, 'vessel')} that never make "
                   "half a knot in the window. --all audits them too.")
        if self.shares:
            yield (f"The audit was made by {count(self.shares, 'run')} over shares of the pairs, and joined to one "
                   f"report ({JOBS}); it has no totals of positions.")
        if self.marked:
            yield (f"{count(self.marked, 'row')} of the report may differ from those of one run, because no window "
                   "has them whole: they are marked `cut` or `doubt` in report.csv.")


@dataclass
class Wanted:
    """Which pairs are audited: those with one of these subjects, or all pairs if it is None; and what was left out."""

    subjects: list[int] | None = None
    still: int = 0
    left_out: int = 0


def wanted(case: Case, scenario: Scenario, near: set[pairs.Pair], is_all: bool) -> Wanted:
    """Returns which pairs are audited. Subjects that the scenario names stay as they are, and so do all pairs if none
    lies still."""
    if scenario.subjects:
        return Wanted(sorted(scenario.subjects))
    still = set() if is_all else pairs.still(case)
    left_out = sum(one in still and other in still for one, other in near)
    if not left_out:
        return Wanted()
    return Wanted(sorted(set(case.tracks) - still), len(still), left_out)


def audit(place: Place, case: Case, is_all: bool = False) -> Audited:
    """Audits the window of a case, whose points are known, and returns the report."""
    scenario = Scenario(place.path(place.scenario))
    near = pairs.near_pairs(case, scenario.watch)
    asked = wanted(case, scenario, near, is_all)
    report = one_run(place, case, scenario, asked, near)
    found = Audited(report) if report is not None else by_shares(place, case, scenario, asked, near)
    found.still, found.left_out = asked.still, asked.left_out
    return found


def one_run(place: Place, case: Case, scenario: Scenario, asked: Wanted, near: set[pairs.Pair]) -> str | None:
    """Returns the report of one run, or None if the case is too large for one."""
    if case.steps > MOST_TICKS or len(case.tracks) > MOST_VESSELS or len(asked.subjects or ()) > MOST_SUBJECTS:
        return None
    pairs_of = asked.subjects and set(asked.subjects)
    if 2 * sum(not pairs_of or not pairs_of.isdisjoint(pair) for pair in near) > MOST_PAIRS:
        return None
    if asked.subjects and not scenario.subjects:
        write(place.path(place.scenario), scenario.with_subjects(asked.subjects))
    done = Run(place.program, "audit", place.path(place.scenario), place.path(place.log),
               window_options(place.start, place.ticks))
    if done.status == STATUS and "pairs" in done.words:
        write(place.path(place.scenario), scenario.text)
        return None
    if done.status:
        raise done.fault("audit")
    return done.text.decode()


def by_shares(place: Place, case: Case, scenario: Scenario, asked: Wanted, near: set[pairs.Pair]) -> Audited:
    """Returns the joined report of shares. Their scenario has all subjects, which may be more than a run takes, for
    each share has its own."""
    write(place.path(SCENARIO), scenario.with_subjects(asked.subjects))
    told = list(planned(place, case, asked.subjects, near))
    write(place.path(JOBS), "".join(json.dumps(entry) + "\n" for entry in told))
    jobs = [job_of(entry, place.folder) for entry in told]
    shared, summary = Scenario(place.path(SCENARIO)), join.Summary()
    with tempfile.TemporaryDirectory(dir=place.folder, prefix=".shares-") as folder:
        kept = Kept(folder, place.program)
        run(jobs, kept, place)
        text = "".join(line + "\n" for line in join.joined(jobs, kept, shared, summary))
    doubts = [f"{doubt.mark}: {doubt.subject or 'all vessels'}{f' and {doubt.other}' if doubt.other else ''}: "
              f"{doubt.reason}" for doubt in sorted(summary.doubts)]
    return Audited(text, len(jobs), marked=sum(summary.marked.values()), doubts=doubts)


def write(path: str, text: str) -> None:
    """Writes a text as it is."""
    with open(path, "w", encoding="utf-8", newline="") as out:
        out.write(text)


def planned(place: Place, case: Case, subjects: list[int] | None, near: set[pairs.Pair]) -> Iterable[dict[str, Any]]:
    """Yields the shares: windows if there are too many ticks, tiles if there are too many vessels, and groups of
    subjects if there are too many pairs."""
    with tempfile.TemporaryDirectory(dir=place.folder, prefix=".index-") as index:
        every = windows(place, case, index)
    for told in every:
        told["files"], told["scenario"] = [place.log], SCENARIO
        told.pop("subjects", None)
        of = set(told["vessels"]) if told.get("vessels") is not None else set(case.tracks)
        met = {pair for pair in near if of.issuperset(pair)}
        if subjects is None and len(met) <= pairs.ROOM:
            yield told
            continue
        for group in pairs.groups(case, of.intersection(subjects or of), met) or [[NOBODY]]:
            yield {**told, "subjects": group}


def windows(place: Place, case: Case, index: str) -> list[dict[str, Any]]:
    """Returns the windows of the whole, each perhaps in tiles; the folder `index` stores what was read of the log. The
    plan reads points, so its scenario is that of the case, without the many subjects."""
    log, scenario = [place.path(place.log)], Scenario(place.path(place.scenario))
    if len(case.tracks) <= MOST_VESSELS:
        return list(plans.plan(log, plans.Wanted(case.start, case.steps, index=index), scenario, None))
    for across in TILES:
        tiled = plans.Wanted(case.start, case.steps, group=MOST_SUBJECTS, tiles=(across, across), index=index)
        found = list(plans.plan(log, tiled, scenario, place.program))
        tiles = {json.dumps([told["start"], told["tile"]]): told for told in found}
        if max(len(told["vessels"]) for told in tiles.values()) <= MOST_VESSELS:
            return list(tiles.values())
    raise Fault(f"there are too many vessels for {TILES[-1]} times {TILES[-1]} tiles: give a smaller --area, or a "
                "shorter time by --from and --to")


def run(jobs: list[Job], kept: Kept, place: Place) -> None:
    """Runs the shares, several at a time, and shows how many are done; a Fault says why one failed."""
    bar = Bar("case: auditing by shares", len(jobs))

    def take(done: runs.Done) -> None:
        done.result()
        bar.step()

    try:
        runs.run_each(jobs, kept, place.program, place.jobs, take)
    except OSError as error:
        raise Fault(f"{error.filename or kept.folder}: {reason(error)}") from None
