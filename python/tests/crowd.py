"""A log of vessels that keep course and speed, with more than 4096 pairs in contact; and the harbour of twenty."""
import functools
import math
import random
from collections.abc import Iterable, Iterator

import passing
from given import example, text_of
from colregs.io.sentences import block, class_a, sentence

START, TICK, STEPS = 1700000000, 10, 24
SCENARIO = passing.SCENARIO.replace("ticks = 100", f"ticks = {STEPS}").replace("ta = 120", "ta = 60")
HARBOUR_STEPS = 198


@functools.cache
def log(vessels: int = 400, side: int = 28000) -> str:
    """Returns a report of each vessel in every minute, on a square with a side in metres."""
    draw, lines = random.Random(400), []
    for k in range(vessels):
        x, y = draw.uniform(0, side), draw.uniform(0, side)
        course, speed = draw.randrange(3600), draw.randrange(60, 200)
        for second in range(k % 60, STEPS * TICK + 60, 60):
            way = speed * second / 36000 * 1852
            north, east = ((there + way * along) / 0.1852
                           for there, along in ((y, math.cos(math.radians(course / 10))),
                                                (x, math.sin(math.radians(course / 10)))))
            report = round(north), round(east), speed, course, course // 10, second % 60
            lines.append(
                (second, (block(START + second) + sentence(class_a(200000001 + k, report, 0)) + b"\n").decode()))
    return "".join(line for _, line in sorted(lines, key=lambda entry: entry[0]))


def wide() -> bytes:
    """Returns the reports of 4200 vessels, more than a run allows, in pairs that meet head-on, each pair far from all
    others."""
    lines = []
    for second in (0, 60, 120):
        for k in range(4200):
            pair, back = divmod(k, 2)
            east = round((3000 * (pair % 50) + (800 - 5 * second if back else 5 * second)) / 0.1852)
            report = round(3000 *
                           (pair // 50) / 0.1852), east, 97, 2700 if back else 900, 270 if back else 90, second % 60
            lines.append(block(START + second) + sentence(class_a(200000001 + k, report)) + b"\n")
    return b"".join(lines)


def harbour() -> str:
    """Returns the scenario of the harbour of twenty over all of its log, 33 minutes."""
    return text_of(example("harbour_of_twenty.toml")).replace("ticks = 180 ", f"ticks = {HARBOUR_STEPS} ")


def moved(lines: Iterable[str], seconds: int) -> Iterator[str]:
    """Yields lines with other times."""
    for line in lines:
        if line.startswith("\\"):
            _, fields, rest = line.split("\\", 2)
            line = block(int(fields[2:12]) + seconds).decode() + rest
        yield line


def stretches(report: str) -> list[str]:
    """Returns the rows of meetings and verdicts of a report."""
    return [row for row in report.splitlines() if row.startswith(("meeting,", "verdict,"))]
