"""The refusals that a log meets before its end: the earliest place is reported, and exactly what the lines before it
decide is written.

The logs are made up, of 4097 vessels, and of 65 vessels that are so near that 4160 pairs are in contact.
"""
from __future__ import annotations

import subprocess
import tempfile

from colregs.io.sentences import block, class_a, sentence
from dev.checking import Findings
from dev.repository import read

NEEDS_PROGRAM = True
START = 1700000000      # of examples/harbour.toml
VESSELS, PAIRS = (7, "limit: vessels 4096\n"), (7, "limit: pairs 4096\n")


def report(mmsi: int, second: int, place: int) -> bytes:
    """Returns a report of a vessel that is at rest, `place` times 20/10000 minutes north of the reference."""
    return block(START + second) + sentence(class_a(mmsi, (28549600 + 20 * place, -73407500, 0, 0, 0, 0))) + b"\n"


class Runs:
    """Runs of the program on the harbour's scenario."""

    def __init__(self, program: str, folder: str):
        self._program, self._folder = program, folder
        with open(folder + "/scenario.toml", "w", encoding="utf-8") as out:
            out.write(read("examples", "harbour.toml"))

    def run(self, mode: str, log: bytes) -> tuple[tuple[int, str], str]:
        """Returns the status and standard error of a run, and what it wrote."""
        done = subprocess.run([self._program, mode, "scenario.toml"], input=log, capture_output=True, cwd=self._folder)
        return (done.returncode, done.stderr.decode()), done.stdout.decode()


def check(found: Findings) -> None:
    """Adds a fault for each run that ends otherwise."""
    with tempfile.TemporaryDirectory() as folder:
        runs = Runs(found.program, folder)

        def compare(name: str, mode: str, log: bytes, wanted: tuple[int, str], written: str) -> None:
            ended, output = runs.run(mode, log)
            found.same(f"{name}, status and standard error", ended, wanted)
            if output != written:
                found.fault(f"{name}: {len(output)} bytes are written, want {len(written)} others")

        held = b"".join(report(200000001 + k, 0, 0) for k in range(4096))
        one_more = report(300000001, 0, 0)
        rows = "".join(row + "\n" for row in runs.run("points", held)[1].splitlines() if row.startswith("point,"))
        found.same("points of 4096 vessels", rows.count("\n"), 4096)
        compare("a 4097th vessel", "points", held + one_more + report(300000002, 0, 0), VESSELS, rows)
        compare("a 4097th vessel in the last line, which has no line feed", "points", (held + one_more)[:-1], VESSELS,
                rows)
        near = b"".join(report(200000001 + k, second, k) for second in (0, 300) for k in range(65))
        far, early = (b"".join(report(400000001 + k, second, 1000) for k in range(4097)) for second in (700, 300))
        # The first tick is settled once the clock is past it by the gap of 600 s and the slack of 60 s.
        settles = block(START + 700) + b"x\n"
        compare("pairs before vessels", "audit", near + settles + far, PAIRS, "")
        compare("pairs at the end", "audit", near, PAIRS, "")
        compare("vessels before pairs", "audit", near + early + settles, VESSELS, "")
