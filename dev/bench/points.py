#!/usr/bin/env python3
"""Times `colregs points` on a log of position reports, beside other programs, in one run.

    dev/bench/points.py [--program COLREGS] [--reports N] [--vessels N] [--rounds N] [PROGRAM ...]

It writes a scenario and a log of N position reports of ITU-R M.1371 message 1 (two million by default), each in one
line with a right checksum and a tag block with its time. The vessels report in turn, once a second, at 11 knots, so
every report is accepted. Each program first runs once and must write as many rows `point` as the others. Then each
program is timed in turn, some rounds long, with the log as standard input and its output discarded; the least time of
each is printed with its ratio to `wc -l`. A PROGRAM is a shell command that runs in the folder of scenario.toml;
`{log}` in it stands for the log's path. Compare the ratios, since the seconds are of this machine and this run.
"""
import argparse
import os
import random
import shutil
import subprocess
import sys
import tempfile
import time

from sentences import HARBOUR, START, TOP, armour, position_report, sentence, tagged


def write_log(path: str, reports: int, vessels: int) -> None:
    draw = random.Random(1)
    places = [(28549600 + draw.randrange(-500000, 500000), -73407500 + draw.randrange(-500000, 500000))
              for _ in range(vessels)]
    with open(path, "w") as out:
        for k in range(reports):
            vessel, second = k % vessels, k // vessels
            latitude, longitude = places[vessel]
            payload, fill = armour(
                position_report(1, 200000001 + vessel, latitude + 30 * second, longitude, draw.randrange(0, 300),
                                draw.randrange(0, 3600), draw.randrange(0, 360), second % 60))
            out.write(tagged(START + second, sentence(1, 1, "", "AB"[k % 2], payload, fill)) + "\n")


def rows(command: str, log: str, cwd: str) -> int:
    """How many `point` rows the program writes."""
    with open(log, "rb") as source:
        done = subprocess.run(command, shell=True, stdin=source, stdout=subprocess.PIPE, cwd=cwd)
    return sum(row.startswith(b"point,") for row in done.stdout.splitlines())


def seconds(command: str, log: str, cwd: str) -> float:
    with open(log, "rb") as source:
        begin = time.perf_counter()
        done = subprocess.run(command, shell=True, stdin=source, stdout=subprocess.DEVNULL, cwd=cwd)
        end = time.perf_counter()
    if done.returncode != 0:
        sys.exit("%s: status %d" % (command, done.returncode))
    return end - begin


def main() -> None:
    words = argparse.ArgumentParser(description=__doc__, formatter_class=argparse.RawDescriptionHelpFormatter)
    words.add_argument("--reports", type=int, default=2000000)
    words.add_argument("--vessels", type=int, default=4000)
    words.add_argument("--rounds", type=int, default=5)
    words.add_argument("--program", default=os.path.join(TOP, "crates", "colregs", "out", "colregs"))
    words.add_argument("programs", nargs="*", metavar="PROGRAM")
    given = words.parse_args()
    with tempfile.TemporaryDirectory() as place:
        log = os.path.join(place, "log")
        shutil.copy(HARBOUR, os.path.join(place, "scenario.toml"))
        write_log(log, given.reports, given.vessels)
        commands = ["wc -l", "%s points scenario.toml" % os.path.abspath(given.program)]
        commands += [program.replace("{log}", log) for program in given.programs]
        counted = {command: rows(command, log, place) for command in commands[1:]}
        if set(counted.values()) != {given.reports}:
            sys.exit("%d reports, but rows: %s" % (given.reports, counted))
        least = [float("inf")] * len(commands)
        for _ in range(given.rounds):
            for k, command in enumerate(commands):
                least[k] = min(least[k], seconds(command, log, place))
        print("%d reports of %d vessels, as many rows, %d bytes" % (given.reports, given.vessels, os.path.getsize(log)))
        for command, best in zip(commands, least):
            print("%8.3f s  %6.1f x wc -l  %s" % (best, best / least[0], command))


if __name__ == "__main__":
    main()
