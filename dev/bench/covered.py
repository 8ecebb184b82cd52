#!/usr/bin/env python3
"""Measures which lines of python/colregs its tests run: covered.py PROGRAM [NAME ..]

It runs python/tests/run under Debian's python3-coverage, also in the processes that the tests start, and prints a table
by folder, and the files below 90 %. NAME takes only these tests.
"""
import argparse
import collections
import json
import os
import subprocess
import sys
import tempfile

from sentences import TOP

PACKAGE = os.path.join(TOP, "python", "colregs")
LEAST = 90          # percent of a file's lines; files with less are listed
SETTINGS = r"""[run]
source = {package}
parallel = True
data_file = {folder}/data
concurrency = thread,multiprocessing
[report]
exclude_lines =
    if __name__ == .__main__.:
    ^\s*\.\.\.$
"""
START = "import coverage\ncoverage.process_startup()\n"     # Python imports sitecustomize in each process


def measured(folder: str, program: str, names: list[str]) -> tuple[int, dict[str, tuple[int, int]]]:
    """Returns the status of the tests, and how many lines each file has and how many of them ran."""
    settings = os.path.join(folder, "settings")
    for path, text in ((settings, SETTINGS.format(package=PACKAGE, folder=folder)),
                       (os.path.join(folder, "sitecustomize.py"), START)):
        with open(path, "w", encoding="utf-8") as out:
            out.write(text)
    path = os.path.dirname(sys.executable) + os.pathsep + os.environ.get("PATH", os.defpath)    # `python3` is this one
    environment = {**os.environ, "COVERAGE_PROCESS_START": settings, "PYTHONPATH": folder, "PATH": path}
    tests = [sys.executable, os.path.join(TOP, "python", "tests", "run"), os.path.abspath(program), *names]
    status = subprocess.run(tests, env=environment, stdout=sys.stderr).returncode
    report = os.path.join(folder, "report.json")
    for words in (["combine", "--quiet"], ["json", "--quiet", "-o", report]):
        subprocess.run([sys.executable, "-m", "coverage", words[0], f"--rcfile={settings}", *words[1:]], check=True)
    with open(report, encoding="utf-8") as source:
        files = json.load(source)["files"]
    sums = {os.path.relpath(path, PACKAGE): about["summary"] for path, about in files.items()}
    return status, {path: (about["num_statements"], about["covered_lines"]) for path, about in sums.items()}


def percent(lines: int, ran: int) -> str:
    """Returns a share of lines in percent."""
    return f"{100 * ran / lines:.1f}" if lines else "100.0"


def main() -> int:
    words = argparse.ArgumentParser(description=__doc__, formatter_class=argparse.RawDescriptionHelpFormatter)
    words.add_argument("program")
    words.add_argument("names", nargs="*", metavar="NAME")
    given = words.parse_args()
    with tempfile.TemporaryDirectory() as folder:
        status, files = measured(folder, given.program, given.names)
    folders: dict[str, list[tuple[int, int]]] = collections.defaultdict(list)
    for path, counts in files.items():
        folders[os.path.dirname(path) or "."].append(counts)
    print("| folder | lines | ran | percent |\n|---|---|---|---|")
    for name, counted in [*sorted(folders.items()), ("all", list(files.values()))]:
        lines, ran = (sum(counts[k] for counts in counted) for k in (0, 1))
        print(f"| {name} | {lines} | {ran} | {percent(lines, ran)} |")
    low = [f"{path} {percent(*counts)}" for path, counts in sorted(files.items())
           if 100 * counts[1] < LEAST * counts[0]]
    if low:
        print(f"Below {LEAST} %: " + ", ".join(low))
    return status


if __name__ == "__main__":
    sys.exit(main())
