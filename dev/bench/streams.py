#!/usr/bin/env python3
"""Times `colregs points` or `audit` on a log that comes through a pipe, and measures its greatest memory.

    dev/bench/streams.py PROGRAM [--mode points] [--bytes 1073741824] [--tagged]

The log is never stored whole: a piece of about a megabyte is made once and written to the program again and again,
first up to half of the bytes and then up to all. By default no line has a time, so that each vessel has one point and
each further report is `back`; with --tagged each line has a tag block with the window's start. A gibibyte is the most
that a scenario allows. Each row has the bytes, the lines, the seconds, millions of lines a second, and the greatest
memory of the program in kilobytes, before its end.
"""
import argparse
import itertools
import os
import random
import subprocess
import sys
import tempfile
import time
from collections.abc import Iterable

from sentences import HARBOUR, START, armour, position_report, sentence, tagged


def made_piece(with_tags: bool) -> tuple[bytes, int]:
    draw = random.Random(1)
    lines = []
    for k in range(20000):
        payload, fill = armour(
            position_report(1, 200000001 + k % 1000, 28549600 + draw.randrange(-50000, 50000),
                            -73407500 + draw.randrange(-50000, 50000), draw.randrange(0, 300), draw.randrange(0, 3600),
                            draw.randrange(0, 360), k % 60))
        line = sentence(1, 1, "", "AB"[k % 2], payload, fill)
        lines.append(tagged(START, line) if with_tags else line)
    return ("\n".join(lines) + "\n").encode(), len(lines)


def greatest_memory(program: str, mode: str, folder: str, pieces: Iterable[bytes]) -> int:
    """Returns the greatest memory in kB of a program that reads pieces of a log from a pipe, before its end."""
    command = [os.path.abspath(program), mode, "scenario.toml"]
    with subprocess.Popen(command, stdin=subprocess.PIPE, stdout=subprocess.DEVNULL, cwd=folder) as child:
        assert child.stdin
        for piece in pieces:
            child.stdin.write(piece)
        child.stdin.flush()
        # the usage that wait returns also counts this program's memory, from before the other began
        with open("/proc/%d/status" % child.pid) as status:
            memory = next(int(row.split()[1]) for row in status if row.startswith("VmHWM:"))
    if child.returncode:
        sys.exit("%s ended with status %d" % (program, child.returncode))
    return memory


def measure(program: str, mode: str, piece: bytes, count: int) -> tuple[float, int]:
    with tempfile.TemporaryDirectory() as place:
        with open(HARBOUR) as text, open(os.path.join(place, "scenario.toml"), "w") as out:
            out.write(text.read())
        begin = time.perf_counter()
        memory = greatest_memory(program, mode, place, itertools.repeat(piece, count))
        return time.perf_counter() - begin, memory


def main() -> None:
    words = argparse.ArgumentParser(description=__doc__, formatter_class=argparse.RawDescriptionHelpFormatter)
    words.add_argument("program")
    words.add_argument("--mode", default="points")
    words.add_argument("--bytes", type=int, default=1 << 30)
    words.add_argument("--tagged", action="store_true")
    asked = words.parse_args()
    piece, lines = made_piece(asked.tagged)
    for most in (asked.bytes // 2, asked.bytes):
        count = most // len(piece)
        took, memory = measure(asked.program, asked.mode, piece, count)
        print("%d bytes, %d lines: %.2f s, %.2f million lines a second, %d kB" % (
            count * len(piece), count * lines, took, count * lines / took / 1e6, memory))


if __name__ == "__main__":
    main()
