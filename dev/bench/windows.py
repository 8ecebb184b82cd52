#!/usr/bin/env python3
"""Times the audit of a made archive of a day in shares, packed and with nothing cut.

    dev/bench/windows.py PROGRAM [--vessels N] [--files N]

In the archive each vessel goes to and fro between two places for a day, at 2 to 6 knots, and reports each minute. It is
packed by gzip, and each share reads all of it, or those of many files that its window meets, for a window of two hours.
Rows have the jobs at a time, the seconds, and the CPU seconds of the shares (user and system), which depend less on the
load of the machine. The rows before them are the reading alone, by a run whose window has no line, and the plan; the
last row is the join.
"""
import argparse
import gzip
import math
import os
import random
import resource
import subprocess
import sys
import tempfile
import time
from collections.abc import Callable
from typing import IO

from fleets import SCENARIO
from sentences import START, TOP
from colregs.io.sentences import Report, block, class_a, sentence

DAY = 86400
Path = Callable[[int], Report]              # what a vessel reports at a second
MANY = os.path.join(TOP, "tools", "colregs-many")


def vessel(draw: random.Random, side: float) -> tuple[int, Path]:
    """Where a vessel is at a second, in 1/10000 minute on the equator, and her course: to and fro, with half an hour to
    an hour for a way."""
    x, y, angle = draw.uniform(0, side), draw.uniform(0, side), draw.uniform(0, 2 * math.pi)
    way = draw.randrange(1800, 3600, 60)
    speed, phase = draw.randrange(20, 61), draw.randrange(60)

    def at(second: int) -> Report:
        turns, gone = divmod(second + 60 * phase, way)
        gone = way - gone if turns % 2 else gone
        metres, course = speed * gone / 36000 * 1852, round(angle / math.pi * 1800 + 1800 * (turns % 2)) % 3600
        place = round((y + metres * math.cos(angle)) / 0.1852), round((x + metres * math.sin(angle)) / 0.1852)
        return *place, speed, course, course // 10, second % 60
    return phase, at


def archive(folder: str, vessels: int, files: int) -> list[str]:
    """A day in so many files, packed; their names."""
    draw, names = random.Random(vessels), []
    fleet = [(200000001 + 997 * k, *vessel(draw, 2000 * math.sqrt(vessels))) for k in range(vessels)]
    by_phase = [[(mmsi, at) for mmsi, phase, at in fleet if phase == second] for second in range(60)]
    for k in range(files):
        names.append(os.path.join(folder, "%02d.log.gz" % k))
        with gzip.open(names[-1], "wb", compresslevel=6) as out:
            for second in range(DAY * k // files, DAY * (k + 1) // files):
                for mmsi, at in by_phase[second % 60]:
                    out.write(block(START + second) + sentence(class_a(mmsi, at(second))) + b"\n")
    return names


def spent(*words: str, out: int | IO[str] = subprocess.DEVNULL) -> tuple[float, float]:
    """The seconds that a command takes, and its processor seconds."""
    before, began = resource.getrusage(resource.RUSAGE_CHILDREN), time.perf_counter()
    subprocess.run(list(words), check=True, stdout=out, stderr=subprocess.DEVNULL)
    after = resource.getrusage(resource.RUSAGE_CHILDREN)
    return time.perf_counter() - began, after.ru_utime - before.ru_utime + after.ru_stime - before.ru_stime


def measure(folder: str, args: argparse.Namespace) -> None:
    scenario, jobs = os.path.join(folder, "scenario.toml"), os.path.join(folder, "jobs")
    with open(scenario, "w") as out:
        out.write(SCENARIO)
    names = archive(folder, args.vessels, args.files)
    reading = "gzip -dc %s | %s audit %s --start=1 --ticks=1" % (" ".join(names), os.path.abspath(
        args.program), scenario)
    print("%d files, %.1f MB packed; load %.1f" %
          (len(names), sum(map(os.path.getsize, names)) / 1e6, os.getloadavg()[0]))
    print("| | seconds | processor seconds |\n|---|---|---|")
    print("| reading it once | %.2f | %.2f |" % spent("sh", "-c", reading))
    group = ["--group", str(args.group), "--program", args.program] if args.group else []
    with open(jobs, "w") as out:
        print("| plan | %.2f | %.2f |"
              % spent(MANY, "plan", scenario, *names, "--ticks-each", "360", "--overlap", "3600", *group, out=out))
    for count in args.at:
        kept = os.path.join(folder, "kept%d" % count)
        words = spent(MANY, jobs, "--kept", kept, "--program", args.program, "--jobs", str(count))
        print("| %d at a time | %.1f | %.1f |" % (count, *words), flush=True)
    print("| join | %.2f | %.2f |" % spent(MANY, "join", jobs, "--kept", kept, "--program", args.program))
    with open(jobs) as source:
        print("%d jobs" % sum(1 for _ in source))


def main() -> int:
    parser = argparse.ArgumentParser(description=__doc__, formatter_class=argparse.RawDescriptionHelpFormatter)
    parser.add_argument("program")
    parser.add_argument("--vessels", type=int, default=400)
    parser.add_argument("--group", type=int, default=0)
    parser.add_argument("--files", type=int, default=1, help="so many files of a day")
    parser.add_argument("--at", type=int, nargs="*", default=[1, 2, 4], help="jobs at a time")
    args = parser.parse_args()
    with tempfile.TemporaryDirectory() as folder:
        measure(folder, args)
    return 0


if __name__ == "__main__":
    sys.exit(main())
