#!/usr/bin/env python3
"""Makes a case of the day in a strait (strait_day.py), and says what that takes and what of the day it finds.

    dev/bench/strait_case.py PROGRAM [--hours H] [--jobs N]
    dev/bench/strait_case.py --made FOLDER CASE

The second form takes the folder of a day and its case as they are. A row has, of each planted pair, what the two do,
when and how near they would be nearest, and what the case says: the nearest moment, the rules that are broken, and how
near both would have come if contact is lost. The last rows have, of the broken verdicts between vessels that only seem
to break a rule, how many there are and how many have a mark.
"""
import argparse
import collections
import csv
import os
import resource
import sqlite3
import subprocess
import sys
import tempfile
import time

import strait_day
from colregs.model.rules import clock

HERE = os.path.dirname(os.path.abspath(__file__))
CASE = os.path.join(HERE, "..", "..", "tools", "colregs-case")
MARKED = "at_rest <> '' or alongside or in_tow or fishing or pilot"
# names of the vessels whose verdicts are false alarms, by what they do
SEEMING = {
    frozenset({"FISHER"}): "fishers among themselves", frozenset({"FISHER", "YACHT"}): "fisher and leisure craft",
    frozenset({"FERRY", "BERTH"}): "ferry and her berth", frozenset({"TUG", "TOW"}): "tug and her tow"
}


def made(folder: str, program: str, hours: float, jobs: int) -> str:
    """Makes the day and its case, and prints what the case takes; returns its folder."""
    strait_day.write(folder, hours)
    logs = [os.path.join(folder, name) for name in ("r1.log", "r2.log")]
    case, began = os.path.join(folder, "case"), time.perf_counter()
    subprocess.run([
        sys.executable, CASE, *logs, "--scenario", os.path.join(folder, "strait.toml"), "--program",
        os.path.abspath(program), "--jobs", str(jobs), "-o", case
    ], check=True, stdout=subprocess.DEVNULL)
    used, elapsed = resource.getrusage(resource.RUSAGE_CHILDREN), time.perf_counter() - began
    print(f"{used.ru_utime + used.ru_stime:.0f} CPU seconds, {elapsed:.0f} s elapsed, "
          f"{used.ru_maxrss / 1000:.0f} MB at most in a process")
    return case


def sizes(case: str) -> None:
    """Prints the sizes of what a user opens."""
    print(", ".join(f"{name} {os.path.getsize(os.path.join(case, name)) / 1e6:.1f} MB"
                    for name in ("case.html", "case.geojson", "case.db")))


def planted(base: sqlite3.Connection, folder: str) -> None:
    """Prints what the case says of each planted pair."""
    print("| What | nearest, if both keep on | in the case | broken | if both went on |\n|---|---|---|---|---|")
    with open(os.path.join(folder, "planted.csv"), encoding="utf-8", newline="") as source:
        for row in csv.DictReader(source):
            pair = int(row["one"]), int(row["other"])
            found = base.execute("select least, nearest, if_both_went_on, if_both_went_on_at from meeting where "
                                 "subject = ? and other = ?", pair).fetchone()
            rules = [rule for rule, in base.execute(
                "select distinct rule from verdict where value = 'broken' and subject in (?, ?) and other in (?, ?) "
                "order by rule", pair + pair)]
            near = f"{found[0]:,.0f} m at {found[1][11:19]}" if found else "no meeting"
            ahead = f"{found[2]:,.0f} m at {found[3][11:19]}" if found and found[2] is not None else ""
            print(f"| {row['what']} | {row['least']} m at {clock(int(row['at']))} | {near} | "
                  f"{' '.join(f'`{rule}`' for rule in rules)} | {ahead} |")


def seeming(base: sqlite3.Connection) -> None:
    """Prints how many verdicts are false alarms, and how many of them have a mark."""
    names = dict(base.execute("select mmsi, name from vessel"))
    every: collections.Counter[str] = collections.Counter()
    marked: collections.Counter[str] = collections.Counter()
    for *pair, has_mark in base.execute(f"select subject, other, {MARKED} from verdict where value = 'broken'"):
        kinds = frozenset(str(names[mmsi]).split(maxsplit=1)[0] for mmsi in pair)
        kind = "pilot and another" if "PILOT" in kinds else SEEMING.get(kinds)
        if kind:
            every[kind] += 1
            marked[kind] += has_mark
    print("\n| Broken verdicts that are false alarms | of these marked |\n|---|---|")
    for kind, count in every.most_common():
        print(f"| {kind}: {count:,} | {marked[kind]:,} |")
    print(f"| all: {sum(every.values()):,} | {100 * sum(marked.values()) / max(1, sum(every.values())):.1f} % |")


def main() -> None:
    words = argparse.ArgumentParser(description=__doc__, formatter_class=argparse.RawDescriptionHelpFormatter)
    words.add_argument("program", nargs="?")
    words.add_argument("--hours", type=float, default=24)
    words.add_argument("--jobs", type=int, default=1)
    words.add_argument("--made", nargs=2, metavar=("FOLDER", "CASE"))
    given = words.parse_args()
    if not given.program and not given.made:
        words.error("give a program, or --made")
    with tempfile.TemporaryDirectory() as room:
        folder, case = given.made or (room, made(room, given.program, given.hours, given.jobs))
        sizes(case)
        base = sqlite3.connect(os.path.join(case, "case.db"))
        planted(base, folder)
        seeming(base)
        base.close()


if __name__ == "__main__":
    main()
