#!/usr/bin/env python3
"""Compares two programs on logs of mutated lines.

    dev/bench/mutated.py PROGRAM OTHER [--first SEED] [--count N] [--lines N] [--mode points]

Each log is made from a seed out of sentences of a made-up fleet, with and without tag blocks, in one part and in two:
bytes are changed, lost, doubled and put in, lines are cut, joined and repeated, and some have their checksums corrected
again, so that the mutation passes the checksum. Both programs' reports, statuses and lines on standard error must be
the same. By default ten logs of 100,000 lines.
"""
import argparse
import os
import random
import subprocess
import sys
import tempfile

from sentences import HARBOUR, START, armour, position_report, sentence, tagged, total

PARTS = [
    "!AIVDM,2,1,3,B,55P5TL01VIaAL@7WKO@mBplU@<PDhh000000001S;AJ::4A80?4i@E53,0*3E",
    "!AIVDM,2,2,3,B,1@0000000000000,2*55",
]


def good_line(draw: random.Random, second: int) -> str:
    if draw.random() < 0.1:
        line = draw.choice(PARTS)
    else:
        kind = draw.choice([1, 1, 1, 2, 3, 18])
        payload, fill = armour(
            position_report(kind, 200000001 + draw.randrange(40), 28549600 + draw.randrange(-50000, 50000),
                            -73407500 + draw.randrange(-50000, 50000), draw.randrange(0, 1024), draw.randrange(0, 4096),
                            draw.randrange(0, 512), second % 60))
        line = sentence(1, 1, "", "AB"[draw.randrange(2)], payload, fill)
    return tagged(START + second + draw.randrange(-90, 90), line) if draw.random() < 0.7 else line


def with_sum(line: str) -> str:
    """The line with the sum of its sentence made right."""
    begin, star = line.rfind("!"), line.rfind("*")
    if begin < 0 or star < begin:
        return line
    return line[:star] + "*" + total(line[begin + 1:star].encode("latin-1").decode("latin-1")) + line[star + 3:]


def mutated(draw: random.Random, line: str) -> str:
    for _ in range(draw.choice([1, 1, 1, 2, 5])):
        if not line:
            return line
        at = draw.randrange(len(line))
        how = draw.randrange(8)
        if how == 0:
            line = line[:at] + chr(draw.randrange(256)) + line[at + 1:]
        elif how == 1:
            line = line[:at] + line[at + 1:]
        elif how == 2:
            line = line[:at] + line[at] + line[at:]
        elif how == 3:
            line = line[:at] + draw.choice("\\!*,\r\n01vV~ $") + line[at:]
        elif how == 4:
            line = line[:at]
        elif how == 5:
            line = line + line[:at]
        elif how == 6 and draw.random() < 0.05:
            line = line * draw.randrange(2, 40)
        else:
            line = line[:at] + draw.choice("0123456789ABCDEFw`") + line[at + 1:]
    return line


def made_log(seed: int, lines: int) -> bytes:
    draw = random.Random(seed)
    made = []
    for k in range(lines):
        line = good_line(draw, k * 400 // lines)
        if draw.random() < 0.7:
            line = mutated(draw, line)
            if draw.random() < 0.5 and all(ord(byte) < 128 for byte in line):
                line = with_sum(line)
        made.append(line)
    return ("\n".join(made) + draw.choice(["", "\n", "\r\n"])).encode("latin-1")


def run(program: str, mode: str, log: bytes, place: str) -> tuple[int, bytes, bytes]:
    done = subprocess.run([os.path.abspath(program), mode, "scenario.toml"], input=log, capture_output=True, cwd=place)
    return done.returncode, done.stdout, done.stderr


def main() -> None:
    words = argparse.ArgumentParser(description=__doc__, formatter_class=argparse.RawDescriptionHelpFormatter)
    words.add_argument("program")
    words.add_argument("other")
    words.add_argument("--first", type=int, default=1)
    words.add_argument("--count", type=int, default=10)
    words.add_argument("--lines", type=int, default=100000)
    words.add_argument("--mode", default="points")
    asked = words.parse_args()
    counts: dict[str, int] = {}
    with tempfile.TemporaryDirectory() as place:
        with open(HARBOUR) as text, open(os.path.join(place, "scenario.toml"), "w") as out:
            out.write(text.read())
        for seed in range(asked.first, asked.first + asked.count):
            log = made_log(seed, asked.lines)
            ours, others = run(asked.program, asked.mode, log, place), run(asked.other, asked.mode, log, place)
            if ours != others:
                with open("mutated-%d.log" % seed, "wb") as out:
                    out.write(log)
                sys.exit("mutated: seed %d: statuses %d and %d, %d and %d bytes; the log is mutated-%d.log" % (
                    seed, ours[0], others[0], len(ours[1]), len(others[1]), seed))
            for row in ours[1].decode().splitlines():
                if row.startswith("lines,"):
                    _, outcome, count, *_ = row.split(",")
                    counts[outcome] = counts.get(outcome, 0) + int(count)
    print("the same: %d logs" % asked.count)
    for outcome, lines in counts.items():
        print("%9d %s" % (lines, outcome))


if __name__ == "__main__":
    main()
