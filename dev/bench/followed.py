#!/usr/bin/env python3
"""Follows a made day of 300 vessels faster than it passes, and compares its rows with those of one run: followed.py
PROGRAM [--speed N] [--hours N]

The day is the first of months.py. Its lines are written to colregs-follow at the pace of their stamps, N times as fast.
Every row without a mark has to be one of the run over the whole day, and each row of that run that the stream lacks has
to belong to a pair with a marked row whose time it meets. Rows have what came of the rows, the CPU seconds and the peak
memory of the tool and its children. The exit status is 1 if a row differs.
"""
import argparse
import gzip
import json
import math
import os
import re
import resource
import subprocess
import sys
import tempfile
import threading
import time
from typing import IO, Any

import months
from sentences import START
from fleets import SCENARIO

HERE = os.path.dirname(os.path.abspath(__file__))
FOLLOW = os.path.join(HERE, "..", "..", "tools", "colregs-follow")
STAMP = re.compile(rb"\\c:(\d+)")
TICK = 10
MARKS = {"begins_before", "ends_after", "doubt"}
Head = tuple[str, ...]
Moved = tuple[Head, int, int, tuple[str, ...]]          # what of a pair, first and last second, and the rest


def stamp_of(line: bytes) -> int:
    """Returns the time of a line, which has one."""
    found = STAMP.match(line)
    assert found
    return int(found[1])


def paced(lines: list[bytes], out: IO[bytes], speed: float) -> None:
    """Writes lines at the pace of their stamps."""
    begin, waiting, second = time.monotonic(), list[bytes](), -1
    for line in lines:
        at = stamp_of(line)
        if at != second:
            out.write(b"".join(waiting))
            out.flush()
            waiting, second = [], at
            time.sleep(max(0.0, begin + (at - START) / speed - time.monotonic()))
        waiting.append(line)
    out.write(b"".join(waiting))
    out.close()


def absolute(row: str, start: int) -> Moved:
    """Returns the pair and the rule of a row, and its first and last second."""
    fields = row.split(",")
    at = 5 if fields[0] == "verdict" else 4
    first, last = (start + int(step) * TICK for step in fields[at:at + 2])
    return tuple(fields[:at]), first, last, tuple(fields[at + 2:])


def compared(told: list[dict[str, Any]], whole: set[Moved]) -> tuple[int, int, list[Moved], list[Moved]]:
    """Returns how many rows are those of one run, are marked, are not of one run, and are missing without a mark.

    A marked row is a mark for its time, and for all later time if it ends after its window, up to the end of the pair's
    next meeting.
    """
    rows, marked, meetings = set[Moved](), dict[Head, list[tuple[int, float]]](), dict[Head, list[int]]()
    for row in told:
        moved = absolute(row["row"], row["run"])
        pair = moved[0][1:3]
        if not MARKS & set(row):
            rows.add(moved)
        else:
            marked.setdefault(pair, []).append((moved[1], math.inf if row.get("ends_after") else moved[2]))
        if row["kind"] == "meeting" and not row.get("ends_after"):
            meetings.setdefault(pair, []).append(moved[2])
    for pair, spans in marked.items():
        marked[pair] = [(first, last if last < math.inf else min((end for end in meetings.get(pair, [])
                                                                  if end > first), default=last))
                        for first, last in spans]
    missing = [
        row for row in whole - rows
        if not any(first <= row[2] and row[1] <= last for first, last in marked.get(row[0][1:3], []))
    ]
    return len(rows & whole), sum(map(len, marked.values())), sorted(rows - whole), sorted(missing)


def measure(given: argparse.Namespace, folder: str) -> int:
    name, scenario, found = months.archive(folder, given.vessels, 1,
                                           1)[0], os.path.join(folder, "scenario.toml"), os.path.join(folder, "rows")
    ticks = given.hours * 3600 // TICK
    with open(scenario, "w", encoding="utf-8") as out:
        out.write(SCENARIO)
    with gzip.open(name) as source:
        lines = [line for line in source if stamp_of(line) < START + given.hours * 3600]
    words = [
        FOLLOW, scenario, "--days",
        os.path.join(folder, "days"), "--program", given.program, "--out", found, "--whole"
    ]
    begin, before = time.monotonic(), resource.getrusage(resource.RUSAGE_CHILDREN)
    with subprocess.Popen(words, stdin=subprocess.PIPE) as follow:
        assert follow.stdin
        feeder = threading.Thread(target=paced, args=(lines, follow.stdin, given.speed))
        feeder.start()
        feeder.join()
        fed = time.monotonic() - begin
        follow.wait()
    after = resource.getrusage(resource.RUSAGE_CHILDREN)
    one = subprocess.run([given.program, "audit", scenario, f"--ticks={ticks}"], input=b"".join(lines),
                         stdout=subprocess.PIPE, check=True)
    whole = {
        absolute(row, START) for row in one.stdout.decode().splitlines() if row.startswith(("meeting,", "verdict,"))
    }
    with open(found, encoding="utf-8") as source:
        told = [json.loads(line) for line in source]
    same, marked, other, missing = compared(told, whole)
    print("| hours | lines | times as fast | rows of one run | the same | marked | not of one run | missing | CPU "
          "seconds | most memory |\n|" + "---|" * 10)
    print("| %d | %d | %.0f | %d | %d | %d | %d | %d | %.1f | %.0f MB |" % (
        given.hours, len(lines), given.hours * 3600 / fed, len(whole), same, marked, len(other), len(missing),
        after.ru_utime + after.ru_stime - before.ru_utime - before.ru_stime, after.ru_maxrss / 1000))
    for row in (other + missing)[:10]:
        print(row)
    return 1 if follow.returncode or other or missing else 0


def main() -> int:
    words = argparse.ArgumentParser(description=__doc__, formatter_class=argparse.RawDescriptionHelpFormatter)
    words.add_argument("program")
    words.add_argument("--vessels", type=int, default=300)
    words.add_argument("--hours", type=int, default=24)
    words.add_argument("--speed", type=float, default=60)
    words.add_argument("--folder", help="where to leave the files")
    given = words.parse_args()
    given.program = os.path.abspath(given.program)
    with tempfile.TemporaryDirectory() as folder:
        return measure(given, given.folder or folder)


if __name__ == "__main__":
    sys.exit(main())
