"""Measures the gate: python3 -m dev.gate [--of PID] [CRATE ..]

Runs `rt ci` with these arguments at the top of the repository, and adds the CPU seconds of each crate's proof, of its
tests and of its must-fail edits to the tables in dev/bench/data. With --of PID it runs nothing; it watches the children
of that process until it ends, or until a signal TERM says that the gate has passed. Results that a kit's gate has
cached from an earlier run take no time and get no row. A run in which every crate was proved also gets its own row.
`rt ci --anew` proves everything.

The seconds come from the kernel's counts for each check, read four times per second, so a check may lack a quarter of a
second.
"""
from __future__ import annotations

import argparse
import csv
import datetime
import os
import re
import resource
import signal
import subprocess
import sys
import threading
import time
from dataclasses import dataclass, field

from dev.kit import SETTINGS
from dev.repository import TOP, listed_crates, path_of, read_if_there

RUNS, CRATES = path_of("dev", "bench", "data", "gate.csv"), path_of("dev", "bench", "data", "gate_crates.csv")
TICKS = os.sysconf("SC_CLK_TCK")      # of the kernel's clock for CPU time, in a second
EACH = 0.25      # seconds between two readings
Check = tuple[str, str]      # a crate, and `proof`, `tests` or `edits`


@dataclass(frozen=True)
class Process:
    """A process: its parent, its start, its CPU seconds, and those of the children that it has waited for."""

    parent: int
    start: str
    seconds: float
    waited: float


def processes() -> dict[int, Process]:
    """Returns all processes by their number."""
    found = {}
    for name in filter(str.isdigit, os.listdir("/proc")):
        fields = read_if_there(f"/proc/{name}/stat").rpartition(")")[2].split()
        if fields:
            own, waited = ((int(fields[k]) + int(fields[k + 1])) / TICKS for k in (11, 13))
            found[int(name)] = Process(int(fields[1]), fields[19], own, waited)
    return found


def below(found: dict[int, Process], root: int) -> set[int]:
    """Returns all descendants of a process."""
    known, grown = {root}, True
    while grown:
        more = {pid for pid, process in found.items() if process.parent in known} - known
        grown, known = bool(more), known | more
    return known - {root}


def check_of(words: list[str], folder: str) -> Check | None:
    """Returns the crate and the kind of the check that a command in a folder runs, or None if it proves nothing."""
    if os.path.basename(words[0]) != "rattle" or "--crate-name" not in words:
        return None
    is_edit = re.search(r"/rt-edit-[^/]*$", folder)
    return words[words.index("--crate-name") + 1], "edits" if is_edit else "tests" if "--test" in words else "proof"


@dataclass
class Seen:
    """The CPU seconds of each check so far, by its process and start."""

    checks: dict[tuple[int, str], Check | None] = field(default_factory=dict)
    seconds: dict[tuple[int, str], float] = field(default_factory=dict)
    loads: list[float] = field(default_factory=list)

    def look(self, root: int) -> Process | None:
        """Reads the running checks below a process; returns that process if it still runs."""
        found = processes()
        for pid in below(found, root):
            key = (pid, found[pid].start)
            if not self.checks.get(key):
                try:
                    self.checks[key] = check_of(
                        read_if_there(f"/proc/{pid}/cmdline").split("\0"), os.readlink(f"/proc/{pid}/cwd"))
                except OSError:
                    continue
            self.seconds[key] = found[pid].seconds
        self.loads.append(os.getloadavg()[0])
        return found.get(root)

    def table(self) -> dict[Check, float]:
        """Returns the CPU seconds by crate and kind."""
        sums: dict[Check, float] = {}
        for key, check in self.checks.items():
            if check:
                sums[check] = sums.get(check, 0.0) + self.seconds.get(key, 0.0)
        return sums

    def count(self) -> int:
        """Returns the number of checks."""
        return sum(check is not None for check in self.checks.values())


def watch(pid: int, seen: Seen) -> float:
    """Watches a process until it ends or TERM arrives; returns the CPU seconds of all its children that it has waited
    for."""
    ended = threading.Event()
    signal.signal(signal.SIGTERM, lambda *_: ended.set())
    first, total = processes().get(pid), 0.0
    while True:
        now = seen.look(pid)
        if now is None or first is None or now.start != first.start:
            return total
        total = now.seconds + now.waited
        if ended.wait(EACH):
            return total


def run(words: list[str], seen: Seen) -> tuple[int, float]:
    """Runs the gate; returns its status and the CPU seconds of all its children."""
    gate = subprocess.Popen(["rt", "ci", *words], cwd=TOP, env=SETTINGS)
    while gate.poll() is None:
        seen.look(gate.pid)
        time.sleep(EACH)
    used = resource.getrusage(resource.RUSAGE_CHILDREN)
    return gate.returncode, used.ru_utime + used.ru_stime


def edits_of(crate: str) -> int:
    """Returns the number of must-fail edits of a crate."""
    folder = path_of("crates", crate, "must-fail")
    return sum(name.endswith(".edit") for name in os.listdir(folder)) if os.path.isdir(folder) else 0


def crate_rows(table: dict[Check, float], names: list[str], date: str, commit: str) -> list[list[str]]:
    """Returns the rows of the checked crates for dev/bench/data/gate_crates.csv."""
    rows = []
    for name in names:
        proof, tests, edits = (table.get((name, kind)) for kind in ("proof", "tests", "edits"))
        if not proof == tests == edits:      # all None
            rows.append([
                date, commit, name, *("" if it is None else f"{it:.0f}" for it in (proof, tests)),
                str(edits_of(name) or ""), "" if edits is None else f"{edits:.0f}"
            ])
    return rows


def append(path: str, rows: list[list[str]]) -> None:
    """Adds rows to a table."""
    with open(path, "a", encoding="utf-8", newline="") as out:
        csv.writer(out, lineterminator="\n").writerows(rows)


def record(seen: Seen, begun: float, total: float) -> None:
    """Adds the times of a gate to the tables."""
    git = ["git", "-C", TOP, "rev-parse", "--short=8", "HEAD"]
    commit = subprocess.run(git, stdout=subprocess.PIPE, stderr=subprocess.DEVNULL, text=True).stdout.strip()
    date = datetime.datetime.now(datetime.timezone.utc).strftime("%Y-%m-%d")
    names, table = list(listed_crates()), seen.table()
    append(CRATES, crate_rows(table, names, date, commit))
    if all((name, "proof") in table for name in names):
        load = sum(seen.loads) / max(1, len(seen.loads))
        note = f"{seen.count()} checks; load {load:.1f}, {os.cpu_count()} processors"
        append(RUNS, [[
            date, commit, f"{(time.time() - begun) / 60:.0f}", f"{max(total, sum(table.values())) / 60:.1f}", note, ""
        ]])


def main() -> int:
    """Runs or watches the gate; returns its status, or 0 if it only watched."""
    parser = argparse.ArgumentParser(prog="gate", description=__doc__,
                                     formatter_class=argparse.RawDescriptionHelpFormatter)
    parser.add_argument("--of", metavar="PID", type=int, help="watch the gate that runs as this process")
    parser.add_argument("words", metavar="CRATE", nargs="*", help="the arguments of rt ci")
    given, more = parser.parse_known_args()
    begun, seen = time.time(), Seen()
    status, total = (0, watch(given.of, seen)) if given.of else run(given.words + more, seen)
    if status == 0:
        record(seen, begun, total)
    return status


if __name__ == "__main__":
    sys.exit(main())
