#!/usr/bin/env python3
"""Times a program on logs and scenarios that are made to be slow: slow.py PROGRAM [OTHER]

Each row has an input, the seconds on half of it and on all of it, and how many times longer all took: about 2 if the
time is linear. The inputs are ten million empty lines; lines of 1024 commas; 4096 vessels in the worst order, from the
greatest number down; parts of nine-part messages that never end, of all keys; a scenario of 2^20 bytes of nested lists;
and a formula of the greatest weight on a long window. If another program is given, its seconds follow.
"""
import os
import subprocess
import sys
import tempfile
import time
from collections.abc import Callable, Sequence

from sentences import HARBOUR, TOP, armour, position_report, sentence


def empty_lines(share: float) -> bytes:
    return b"\n" * int(10000000 * share)


def commas(share: float) -> bytes:
    return (b"," * 1024 + b"\n") * int(100000 * share)


def vessels(share: float) -> bytes:
    lines = []
    for _ in range(int(20 * share)):
        for k in range(4096):
            payload, fill = armour(position_report(1, 299999999 - k, 28549600, -73407500, 0, 0, 0, 0))
            lines.append(sentence(1, 1, "", "A", payload, fill))
    return ("\n".join(lines) + "\n").encode()


def parts(share: float) -> bytes:
    lines = [
        sentence(9, number, str(key), channel, "0" * 60, 0) for number in range(1, 9) for key in range(10)
        for channel in "AB"
    ]
    return (("\n".join(lines) + "\n") * int(5000 * share)).encode()


def nested(share: float) -> str:
    depth = int(2 ** 19 * share) - 2000
    return "x = " + "[" * depth + "]" * depth


def heavy(share: float) -> tuple[str, int]:
    formula = "risk"
    for _ in range(15):
        formula = "F[0,100] (" + formula + ")"
    return '\n[[formula]]\nname = "heavy"\ntext = "%s"\n' % formula, int(20000 * share)


def seconds(program: str, mode: str, place: str, log: bytes, words: Sequence[str] = ()) -> tuple[float, int]:
    begin = time.perf_counter()
    done = subprocess.run([os.path.abspath(program), mode, "scenario.toml", *words], input=log,
                          stdout=subprocess.DEVNULL, stderr=subprocess.PIPE, cwd=place)
    return time.perf_counter() - begin, done.returncode


def main() -> None:
    programs = sys.argv[1:]
    with open(HARBOUR) as text:
        plain = text.read()
    with open(os.path.join(TOP, "examples", "harbour.log"), "rb") as log:
        harbour = log.read()
    with tempfile.TemporaryDirectory() as place:
        def row(name: str, scenario_of: Callable[[float], str], mode: str, log_of: Callable[[float], bytes],
                words_of: Callable[[float], Sequence[str]] = lambda share: ()) -> None:
            told = []
            for program in programs:
                took = []
                for share in (0.5, 1):
                    with open(os.path.join(place, "scenario.toml"), "w") as out:
                        out.write(scenario_of(share))
                    took.append(seconds(program, mode, place, log_of(share), words_of(share)))
                told.append("%.2f s, %.2f s, %.1f times (status %d)" %
                            (took[0][0], took[1][0], took[1][0] / took[0][0], took[1][1]))
            print("| %s | %s |" % (name, " | ".join(told)), flush=True)

        row("ten million empty lines", lambda share: plain, "points", empty_lines)
        row("100,000 lines of 1024 commas", lambda share: plain, "points", commas)
        row("4096 vessels from the greatest number down, twenty times", lambda share: plain, "points", vessels)
        row("800,000 parts of messages that never end", lambda share: plain, "points", parts)
        row("a scenario of 2^20 bytes of nested lists", nested, "points", lambda share: b"")
        row("a formula of great weight, 20,000 ticks", lambda share: plain + heavy(share)[0], "audit",
            lambda share: harbour, lambda share: ("--ticks", str(heavy(share)[1])))


if __name__ == "__main__":
    main()
