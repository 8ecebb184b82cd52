#!/usr/bin/env python3
"""Measures the greatest memory of `colregs audit` or `watch` on logs that come through a pipe, each ten times as long
as the one before.

    dev/bench/forgetting.py PROGRAM [--mode audit] [--bytes 107374182] [--rows 3] [--vessels 200]

Each vessel goes round in a circle of her own and reports each ten seconds, with a tag block; some circles cut each
other, so that their vessels meet each hour. The log is never stored whole. Each row has the bytes, the lines, the
seconds, and the greatest memory of the program in kilobytes. Memory must not grow with the log: the last row has at
most 1.3 times the memory of the one before.
"""
import argparse
import math
import os
import tempfile
import time
from collections.abc import Iterator

from fleets import ACT
from sentences import START, armour, position_report, sentence, tagged
from streams import greatest_memory

EACH = 10                        # seconds from one report of a vessel to the next
ROUND = 360                      # reports in a round
SCENARIO = """version = 1
[window]
start = %d
tick = 60
ticks = 20000
[reference]
lat = 31200000
lon = 2400000
[log]
gap = 180
slack = 60
max_speed = 500
max_bytes = 1073741824
[detect]
watch = 3000
risk = 300
clear = 1000
horizon = 600
doubt = 50
ahead = 100
reciprocal = 150
""" % START + ACT + """[rules]
safe = 150
overtake = 150
close = 150
t8 = 60
ta = 120
tl = 60
tw = 120
te = 600
"""


def place(vessel: int, step: int) -> tuple[int, int, int]:
    """Where a vessel is on her circle, in 1/10000 minute: the circles' centres lie in rows, 4 km apart, and have 1.5
    km."""
    angle = 2 * math.pi * (step / ROUND + vessel * 0.37) * (1 if vessel % 3 else -1)
    north = (vessel // 15) * 21600 + 8100 * math.sin(angle)
    east = (vessel % 15) * 34560 * (0.55 if vessel % 2 else 1) + 12960 * math.cos(angle)
    sign = -1 if vessel % 3 else 1
    turn = math.degrees(math.atan2(sign * math.sin(angle), -sign * math.cos(angle)))
    return 31200000 + int(north) - 140000, 2400000 + int(east) - 250000, int(10 * (turn % 360)) % 3600


def lines_of_a_round(vessels: int) -> list[list[str]]:
    """Each step's sentences, without their tag blocks."""
    steps = []
    for step in range(ROUND):
        lines = []
        for vessel in range(vessels):
            north, east, course = place(vessel, step)
            payload, fill = armour(
                position_report(1, 200000001 + vessel, north, east, 51, course, course // 10, step % 60))
            lines.append(sentence(1, 1, "", "A", payload, fill))
        steps.append(lines)
    return steps


def pieces(steps: list[list[str]], most: int) -> Iterator[bytes]:
    """The log, a piece for each step, up to so many bytes."""
    count = step = 0
    while True:
        piece = "".join(tagged(START + EACH * step, line) + "\n" for line in steps[step % ROUND]).encode()
        count += len(piece)
        if count > most:
            return
        yield piece
        step += 1


def measure(program: str, mode: str, steps: list[list[str]], most: int) -> tuple[int, int, float, int]:
    with tempfile.TemporaryDirectory() as folder:
        scenario = os.path.join(folder, "scenario.toml")
        with open(scenario, "w") as out:
            out.write(SCENARIO)
        begun, lines, size = time.monotonic(), 0, 0

        def counted() -> Iterator[bytes]:
            nonlocal lines, size
            for piece in pieces(steps, most):
                yield piece
                size += len(piece)
                lines += piece.count(b"\n")

        memory = greatest_memory(program, mode, folder, counted())
        return size, lines, time.monotonic() - begun, memory


def main() -> None:
    words = argparse.ArgumentParser(description=__doc__, formatter_class=argparse.RawDescriptionHelpFormatter)
    words.add_argument("program")
    words.add_argument("--mode", default="audit", choices=["audit", "watch"])
    words.add_argument("--bytes", type=int, default=107374182, help="of the last log")
    words.add_argument("--rows", type=int, default=3)
    words.add_argument("--vessels", type=int, default=200)
    given = words.parse_args()
    steps = lines_of_a_round(given.vessels)
    for row in range(given.rows):
        size, lines, seconds, memory = measure(given.program, given.mode, steps,
                                               given.bytes // 10**(given.rows - 1 - row))
        print("%s: %d bytes, %d lines, %.1f s, %d kB" % (given.mode, size, lines, seconds, memory), flush=True)


if __name__ == "__main__":
    main()
