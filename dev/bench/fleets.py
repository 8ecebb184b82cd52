#!/usr/bin/env python3
"""Times an audit of 720 ticks by the number of vessels: fleets.py PROGRAM [OTHER] [--vessels 50 200 800]

The vessels lie as dense in each fleet, so that the pairs that meet grow as the vessels do; they move slowly, and report
each minute. Each row has the vessels, the lines of the log, the traces (by the positions of a rule and the steps of a
trace), and the seconds of the program, and of the other one where it is given; the reports are compared.
"""
import argparse
import math
import os
import random
import subprocess
import sys
import tempfile
import time
from collections.abc import Iterator

from sentences import START, Vessel, armour, position_report, sentence, tagged

TICKS = 720
# Which alterations count, in the scenarios of all benchmarks.
ACT = """[act]
steady_turn = 50
apparent_turn = 200
steady_speed = 10
apparent_speed = 50
"""
SCENARIO = """version = 1
[window]
start = 1700000000
tick = 10
ticks = 720
[reference]
lat = 0
lon = 0
[log]
gap = 600
slack = 60
max_speed = 500
[detect]
watch = 700
risk = 200
clear = 400
horizon = 600
doubt = 0
ahead = 100
reciprocal = 100
""" + ACT + """[rules]
safe = 200
overtake = 200
close = 300
t8 = 60
ta = 60
tl = 20
tw = 100
te = 600
"""


def fleet(draw: random.Random, vessels: int) -> Iterator[Vessel]:
    side = 1400 * math.sqrt(vessels)
    for k in range(vessels):
        yield {
            "mmsi": 200000001 + 997 * k, "x": draw.uniform(0, side), "y": draw.uniform(0, side),
            "course": draw.randrange(3600), "speed": draw.choice([0, 0, 5, 10, 20]), "phase": draw.randrange(60)
        }


def lines(draw: random.Random, vessels: int) -> str:
    entries = []
    for vessel in fleet(draw, vessels):
        angle = math.radians(vessel["course"] / 10)
        for elapsed in range(vessel["phase"], 10 * TICKS + 60, 60):
            way = vessel["speed"] * elapsed / 36000 * 1852
            north = round((vessel["y"] + way * math.cos(angle)) / 1852 * 10000)
            east = round((vessel["x"] + way * math.sin(angle)) / 1852 * 10000)
            bits = position_report(1, vessel["mmsi"], north, east, vessel["speed"], vessel["course"],
                                   vessel["course"] // 10, elapsed % 60)
            payload, fill = armour(bits)
            entries.append((elapsed, tagged(START + elapsed, sentence(1, 1, "", "A", payload, fill))))
    entries.sort(key=lambda entry: entry[0])
    return "".join(line + "\n" for _, line in entries)


def timed(program: str, folder: str, log: bytes) -> tuple[float, int, bytes]:
    began = time.perf_counter()
    done = subprocess.run([program, "audit", "scenario.toml"], input=log, cwd=folder, stdout=subprocess.PIPE,
                          stderr=subprocess.PIPE)
    return time.perf_counter() - began, done.returncode, done.stdout


def main() -> int:
    parser = argparse.ArgumentParser(description=__doc__, formatter_class=argparse.RawDescriptionHelpFormatter)
    parser.add_argument("program")
    parser.add_argument("other", nargs="?")
    parser.add_argument("--vessels", type=int, nargs="*", default=[50, 200, 800])
    args = parser.parse_args()
    programs = [os.path.abspath(p) for p in (args.program, args.other) if p]
    columns = " | ".join("seconds %d" % (k + 1) for k in range(len(programs)))
    print("| vessels | lines | positions | rows | " + columns + " | the same |")
    print("|---|---|---|---|" + "---|" * (len(programs) + 1))
    for vessels in args.vessels:
        log = lines(random.Random(vessels), vessels).encode()
        with tempfile.TemporaryDirectory() as folder:
            with open(os.path.join(folder, "scenario.toml"), "w") as out:
                out.write(SCENARIO)
            runs = [min((timed(p, folder, log) for _ in range(3)), key=lambda run: run[0]) for p in programs]
        rows = runs[0][2].decode().split("\n")
        total = [row for row in rows if row.startswith("total,r8d")]
        positions = total[0].split(",")[2] if total else "status %d" % runs[0][1]
        print("| %d | %d | %s | %d | %s | %s |" % (
            vessels, log.count(b"\n"), positions, sum(row.startswith(("meeting", "verdict")) for row in rows),
            " | ".join("%.2f" % run[0] for run in runs), all(run[1:] == runs[0][1:] for run in runs)))
    return 0


if __name__ == "__main__":
    sys.exit(main())
