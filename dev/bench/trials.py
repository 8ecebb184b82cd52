#!/usr/bin/env python3
"""Sea trials of examples/pilot.toml as a table: trials.py PROGRAM [--runs N] [--jobs N] [--kept FOLDER]

First N runs with 1 to 4 others that keep on, a row for each number of others. Then a hundredth as many runs with others
that turn the wrong way, report badly or plan themselves, and with an own ship that is sluggish; the fixed geometries
and the crossings. Seeds begin with 10001, so that a second run makes the same runs. FOLDER stores each 250 runs: a
measure that was stopped continues there.
"""
import argparse
import json
import os
import subprocess
import sys
import tempfile
from collections import Counter
from typing import Any

HERE = os.path.dirname(os.path.abspath(__file__))
TOP = os.path.dirname(os.path.dirname(HERE))
TOOL, SCENARIO = os.path.join(TOP, "tools", "colregs-trials"), os.path.join(TOP, "examples", "pilot.toml")
FIRST, PIECE = 10001, 250
MANY = ["--targets", "1..4"]
HARDER = [("contrary", ["--others", "contrary"]), ("noise", ["--noise"]), ("sluggish", ["--sluggish"]),
          ("planning", ["--others", "planning"])]
FIXED = [("geometries", ["--no-draw", "--geometries"]), ("crossings", ["--no-draw", "--crossing"])]
HEAD = ("Others", "runs", "collisions", "domains entered", "least, m", "`none`, % of answers",
        "broke a rule, % of runs", "rules")

Runs = list[dict[str, Any]]


def made(given: argparse.Namespace, name: str, words: list[str]) -> Runs:
    """Returns the runs of a piece: made now, or by an earlier measure."""
    path = os.path.join(given.kept, name + ".json")
    if not os.path.exists(path):
        subprocess.run([
            sys.executable, TOOL, SCENARIO, "--program", given.program, "--jobs",
            str(given.jobs), "--json", path, *words
        ], check=True, stdout=subprocess.DEVNULL)
    with open(path, encoding="utf-8") as source:
        found: Runs = json.load(source)["runs"]
    return found


def drawn(given: argparse.Namespace, name: str, count: int, words: list[str]) -> Runs:
    """Returns runs that are drawn from the seeds from the first one on."""
    runs: Runs = []
    for begin in range(FIRST, FIRST + count, PIECE):
        piece = min(PIECE, FIRST + count - begin)
        runs += made(given, f"{name}_{begin}_{piece}", [*MANY, "--seed", str(begin), "--runs", str(piece), *words])
    return runs


def share(part: int, whole: int, digits: int) -> str:
    """Returns a number, and how many percent of a whole it is."""
    return f"{100 * part / whole if whole else 0:.{digits}f}"


def row(name: str, runs: Runs) -> str:
    """Returns a row of the table."""
    rules = Counter(rule for run in runs for rule in sorted({breach["rule"] for breach in run["broken"]}))
    none, replans, broke = (sum(values) for values in zip(*((run["none"], run["replans"], bool(run["broken"]))
                                                            for run in runs)))
    cells = (name, f"{len(runs):,}", sum(bool(run["collided"]) for run in runs),
             sum(bool(run["entered"]) for run in runs), f"{min(run['least'] for run in runs):.0f}",
             f"{none:,} of {replans:,}, {share(none, replans, 2)}", f"{broke:,}, {share(broke, len(runs), 1)}",
             ", ".join(f"`{rule}` {count}" for rule, count in rules.most_common()))
    return "| " + " | ".join(map(str, cells)) + " |"


def measure(given: argparse.Namespace) -> None:
    """Prints the table."""
    print("| " + " | ".join(HEAD) + " |\n|" + "---|" * len(HEAD), flush=True)
    runs = drawn(given, "straight", given.runs, [])
    for number in range(1, 5):
        some = [run for run in runs if len(run["others"]) == number]
        if some:
            print(row(f"{number} that keep{'s' if number == 1 else ''} on", some), flush=True)
    for name, more in HARDER:
        print(row(f"1 to 4, {name}", drawn(given, name, max(1, given.runs // 100), more)), flush=True)
    for name, more in FIXED:
        runs = made(given, name, more)
        print(row(f"{len(runs)} {name}", runs), flush=True)


def main() -> int:
    words = argparse.ArgumentParser(description=__doc__, formatter_class=argparse.RawDescriptionHelpFormatter)
    words.add_argument("program")
    words.add_argument("--runs", type=int, default=10000)
    words.add_argument("--jobs", type=int, default=2)
    words.add_argument("--kept")
    given = words.parse_args()
    with tempfile.TemporaryDirectory() as folder:
        given.kept = given.kept or folder
        os.makedirs(given.kept, exist_ok=True)
        measure(given)
    return 0


if __name__ == "__main__":
    sys.exit(main())
