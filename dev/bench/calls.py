#!/usr/bin/env python3
"""Times plans by the library and by processes, and prints the table for RESULTS.md: calls.py LIBRARY PROGRAM
[YARDSTICK] [--plans N] [--rounds N]

LIBRARY is a folder that .ci/library made. In each round each way plans the example N times in turn; the table has the
medians. It ends with status 1 if a plan by the library takes more than a quarter of a process's time.
"""
import argparse
import statistics
import subprocess
import sys
import tempfile
from pathlib import Path

TOP = Path(__file__).resolve().parent.parent.parent
CASE = "giving_way"
MOST = 0.25     # of a process's time


def microseconds(timer: Path, how: str, plans: int, program: list[Path]) -> tuple[float, float]:
    """Runs the timer once; the elapsed and the CPU microseconds of a plan."""
    words = [timer, how, str(plans), TOP / "examples" / f"{CASE}.toml", TOP / "examples" / f"{CASE}.log", *program]
    elapsed, cpu = subprocess.run([str(it) for it in words], cwd=timer.parent, stdout=subprocess.PIPE,
                                  check=True).stdout.split()
    return float(elapsed), float(cpu)


def main() -> int:
    words = argparse.ArgumentParser(description=__doc__, formatter_class=argparse.RawDescriptionHelpFormatter)
    words.add_argument("library", type=Path)
    words.add_argument("program", type=Path)
    words.add_argument("yardstick", type=Path, nargs="?")
    words.add_argument("--plans", type=int, default=1000)
    words.add_argument("--rounds", type=int, default=5)
    given = words.parse_args()
    ways: dict[str,
               tuple[str,
                     list[Path]]] = {"library": ("library", []), "process": ("process", [given.program.resolve()])}
    if given.yardstick:
        ways["yardstick's process"] = ("process", [given.yardstick.resolve()])
    with tempfile.TemporaryDirectory(prefix="calls-") as folder:
        timer = Path(folder) / "calls"
        library = given.library.resolve()
        subprocess.run([
            "cc", "-O2", f"-I{library / 'include'}", TOP / "dev" / "bench" / "calls.c",
            library / "lib" / "libcolregs.a", "-o", timer
        ], check=True)
        taken: dict[str, list[tuple[float, float]]] = {way: [] for way in ways}
        for _ in range(given.rounds):
            for way, (how, program) in ways.items():
                taken[way].append(microseconds(timer, how, given.plans, program))
    medians = {way: tuple(statistics.median(it[k] for it in rounds) for k in (0, 1)) for way, rounds in taken.items()}
    print("| A plan by | Elapsed, µs | CPU, µs | Of a process's time |\n|---|---|---|---|")
    for way, (elapsed, cpu) in medians.items():
        print(f"| {way} | {elapsed:,.0f} | {cpu:,.0f} | {elapsed / medians['process'][0]:.2f} |")
    return 1 if medians["library"][0] > MOST * medians["process"][0] else 0


if __name__ == "__main__":
    sys.exit(main())
