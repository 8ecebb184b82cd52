"""The gate takes no more time without a reason: dev/bench/data/gate.csv says why, if a run took over five CPU minutes
more than the run before it.

The table has one line per run of the gate from nothing, the oldest first:
`date,commit,elapsed_minutes,cpu_minutes,note,why_longer`. dev/gate.py adds the line; if this check fails, write the
reason into its last column.
"""
from __future__ import annotations

import csv
import itertools
from collections.abc import Iterator

from dev.checking import Findings
from dev.repository import read

NEEDS_PROGRAM = False
MINUTES = 5.0      # CPU minutes that a change may add without a reason
HEAD = ["date", "commit", "elapsed_minutes", "cpu_minutes", "note", "why_longer"]
SHOWN = 5      # the number of crates that are named

Row = dict[str, str]


def longer(runs: list[Row]) -> Iterator[tuple[Row, float]]:
    """Yields each run that took more than the run before it, with the CPU minutes that it adds, if these are over the
    limit."""
    measured = [run for run in runs if run["cpu_minutes"]]
    for before, run in itertools.pairwise(measured):
        more = float(run["cpu_minutes"]) - float(before["cpu_minutes"])
        if more > MINUTES:
            yield run, more


def grown(crates: list[Row], commit: str, before: str) -> list[str]:
    """Returns the crates whose checks took the most seconds more at a commit than at the one before."""
    def seconds(of: str) -> dict[str, int]:
        return {
            row["crate"]: sum(int(row[it] or 0) for it in ("proof_s", "tests_s", "edit_checks_s"))
            for row in crates
            if row["commit"] == of
        }

    now, then = seconds(commit), seconds(before)
    most = sorted(now, key=lambda name: then.get(name, 0) - now[name])[:SHOWN]
    return [f"{name} +{now[name] - then.get(name, 0)} s" for name in most if now[name] > then.get(name, 0)]


def check(found: Findings) -> None:
    """Adds a fault for each run that took longer without a reason."""
    lines = csv.reader(read("dev", "bench", "data", "gate.csv").splitlines())
    head, *rows = lines
    found.same("the head of dev/bench/data/gate.csv", head, HEAD)
    for row in rows:
        if len(row) != len(HEAD):
            found.fault(f"dev/bench/data/gate.csv: {len(row)} fields, want {len(HEAD)}: {','.join(row)}")
    runs = [dict(zip(HEAD, row)) for row in rows if len(row) == len(HEAD)]
    crates = list(csv.DictReader(read("dev", "bench", "data", "gate_crates.csv").splitlines()))
    for run, more in longer(runs):
        if not run["why_longer"].strip():
            before = runs[max(0, runs.index(run) - 1)]["commit"]
            most = ", ".join(grown(crates, run["commit"], before))
            found.fault(
                f"the run of {run['date']} at {run['commit']} took {more:.0f} CPU minutes more, and why_longer is empty"
                + (f" (most: {most})" if most else ""))
