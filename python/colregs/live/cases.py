"""Makes a case of an alarm with colregs-case: of the pair alone for viewing, or of all vessels around for storing."""
import io
import os
import re
import subprocess
import sys
import tempfile
import zipfile
from base64 import b64encode
from dataclasses import dataclass
from hashlib import sha256

from colregs.errors import Fault
from colregs.io.files import read_bytes, read_text
from colregs.io.sieve import Sieve
from colregs.live.history import lines_between
from colregs.model.scenario import Scenario
from colregs.run.pipes import PACKAGE
from colregs.stream.day_files import DayFiles

BEFORE, AFTER = 1800, 600       # s before an alarm's first step and after its last one
SECONDS = 120                   # s after which an unfinished case is abandoned
SCRIPT = re.compile(r"<script>(.*?)</script>", re.S)
START = f"import sys; sys.path.insert(0, {PACKAGE!r}); from colregs.cli.case import command; command()"


@dataclass(frozen=True)
class Wanted:
    """The alarm that a case is made for: its vessels, the time of its steps, and the title of the page."""

    pair: tuple[int, int]
    first: int
    last: int
    title: str


class Cases:
    """Makes cases from the day files."""

    def __init__(self, program: str, scenario: Scenario, files: DayFiles, chart: str | None) -> None:
        self.program, self.scenario, self.files, self.chart = program, scenario, files, chart

    def make(self, wanted: Wanted, room: str, pair_only: bool) -> str:
        """Makes the folder of a case in `room`; returns its path."""
        first, last, tick = wanted.first - BEFORE, wanted.last + AFTER, self.scenario.tick
        log, out = os.path.join(room, "stream.log"), os.path.join(room, "case")
        lines = lines_between(self.files, first, last, self.scenario.slack)
        if pair_only:
            lines = Sieve(lambda mmsi: mmsi in wanted.pair, self.scenario.slack).left(lines)
        with open(log, "wb") as target:
            target.writelines(lines)
        start = first // tick * tick
        words = [
            log, "--scenario",
            os.path.abspath(self.scenario.path), "--start",
            str(start), "--ticks",
            str((last - start) // tick), "--title", wanted.title, "--program", self.program, "-o", out,
            *(["--chart", os.path.abspath(self.chart)] if self.chart else [])
        ]
        try:
            done = subprocess.run([sys.executable, "-c", START, *words], capture_output=True, timeout=SECONDS, cwd=room)
        except subprocess.TimeoutExpired:
            raise Fault(f"colregs-case did not finish in {SECONDS} s") from None
        if done.returncode:
            raise Fault(done.stderr.decode("utf-8", "replace").strip())
        return out

    def page(self, wanted: Wanted) -> str:
        """Returns the page of a case of the pair alone."""
        with tempfile.TemporaryDirectory() as room:
            return read_text(os.path.join(self.make(wanted, room, True), "case.html"))

    def archive(self, wanted: Wanted, name: str) -> bytes:
        """Returns the folder of a case of all vessels as a zip file with one folder of this name."""
        target = io.BytesIO()
        with tempfile.TemporaryDirectory() as room, zipfile.ZipFile(target, "w", zipfile.ZIP_DEFLATED) as out:
            folder = self.make(wanted, room, False)
            for file in sorted(os.listdir(folder)):
                out.writestr(f"{name}/{file}", read_bytes(os.path.join(folder, file)))
        return target.getvalue()


def policy_of(page: str) -> str:
    """Returns the content security policy of a case's page: only its own scripts run, named by their hashes, and
    without the origin of this server."""
    sums = " ".join(
        f"'sha256-{b64encode(sha256(script.encode()).digest()).decode()}'" for script in SCRIPT.findall(page))
    return ("sandbox allow-scripts; default-src 'none'; base-uri 'none'; form-action 'none'; frame-ancestors 'self'; "
            "style-src 'unsafe-inline'; "
            f"img-src data: blob:; script-src {sums or chr(39) + 'none' + chr(39)}")
