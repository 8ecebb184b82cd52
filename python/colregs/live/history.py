"""An earlier moment from the day files: the vessels' positions, the encounters and the alarms. It is computed when a
page asks."""
import bisect
import os
import subprocess
from collections.abc import Iterator
from typing import Any

from colregs.errors import Fault
from colregs.io.tag_blocks import LATEST, stamp
from colregs.live.notes import Notes
from colregs.live.state import State
from colregs.model.earth import iso
from colregs.model.scenario import Scenario
from colregs.stream.day_files import DayFiles, begin_of, day_of
from colregs.stream.fleet import About
from colregs.stream.stretches import rows_in

BEFORE = 1800                   # s before the moment whose tracks and alarms are shown
NEAR = 1 << 14                  # the search for a time in a day file stops at this many bytes before it
MOST_BYTES = 64 << 20           # bytes of a day file that one request reads at most
DAY = 86400


def offset_of(path: str, at: int) -> int:
    """Returns an offset in a day file shortly before the first line of a time; every line before it is earlier."""
    def time_after(k: int) -> int:
        with open(path, "rb") as source:
            source.seek(k * NEAR)
            source.readline()
            return next((found for line in source if (found := stamp(line)) is not None), LATEST)

    return max(0, bisect.bisect_left(range(os.path.getsize(path) // NEAR), at, key=time_after) - 1) * NEAR


def lines_between(files: DayFiles, first: int, last: int, slack: int) -> Iterator[bytes]:
    """Yields the lines of the day files with times between two, and some lines around them."""
    left = MOST_BYTES
    for day in files.days():
        if not first - DAY < begin_of(day) <= last:
            continue
        path = files.path(day)
        begin = offset_of(path, first - slack)
        with open(path, "rb") as source:
            source.seek(begin)
            if begin:
                source.readline()
            for line in source:
                at = stamp(line)
                if at is not None and at > last + slack:
                    break
                left -= len(line)
                if left < 0:
                    raise Fault(f"the day files have more than {MOST_BYTES >> 20} MiB of lines between {iso(first)} "
                                f"and {iso(last)}")
                if at is None or at <= last:
                    yield line


class History:
    """Earlier moments of the day files."""

    def __init__(self, program: str, scenario: Scenario, files: DayFiles, notes: Notes, live: State) -> None:
        self.program, self.scenario, self.files, self.notes, self.live = program, scenario, files, notes, live

    def at(self, moment: int) -> dict[str, Any]:
        """Returns a snapshot of an earlier moment, in the form of a snapshot of now."""
        state = State(self.files.folder, self.scenario, self.notes)
        state.set_clock(moment)
        lines = list(lines_between(self.files, moment - BEFORE, moment, self.scenario.slack))
        state.lines(lines, moment)
        state.points(self.points(lines, moment))
        self.take_rows(state, moment)
        state.fleet.forget(moment - BEFORE)
        self.add_names(state)
        return {**state.snapshot(), "encounters": list(self.encounters(state, moment))}

    def add_names(self, state: State) -> None:
        """Adds the names known now for vessels that sent none in the half hour."""
        with self.live.lock:
            for mmsi in state.fleet.ships:
                known, now = state.fleet.about.setdefault(mmsi, About()), self.live.fleet.about.get(mmsi, About())
                known.name, known.kind, known.length = (
                    known.name or now.name,
                    known.kind or now.kind,
                    known.length or now.length,
                )

    def points(self, lines: list[bytes], moment: int) -> Iterator[str]:
        """Yields the rows of `points` for some lines."""
        tick = self.scenario.tick
        start = (moment - BEFORE) // tick * tick
        window = [f"--start={start}", f"--ticks={BEFORE // tick + 1}"]
        done = subprocess.run([self.program, "points", self.scenario.path, *window], input=b"".join(lines),
                              capture_output=True)
        if done.returncode:
            raise Fault(f"the program ends with status {done.returncode}, "
                        f"{done.stderr.decode('utf-8', 'replace').strip()}")
        return (line for line in done.stdout.decode().splitlines() if line.startswith("point,"))

    def rows(self, name: str, moment: int) -> Iterator[dict[str, Any]]:
        """Yields the rows of a kind that may concern a moment: those in the files of its day and of the day before."""
        for day in (day_of(moment - DAY), day_of(moment), day_of(moment + DAY)):
            yield from rows_in(os.path.join(self.files.folder, f"{day}.{name}"))

    def take_rows(self, state: State, moment: int) -> None:
        """Loads the alarm stretches in the half hour before a moment, in their final form."""
        latest: dict[tuple[Any, ...], dict[str, Any]] = {}
        for told in self.rows("stretches", moment):
            if told["first"] <= moment and told["last"] >= moment - BEFORE:
                latest[told["subject"], told["other"], told["rule"], told["first"]] = told
        for told in latest.values():
            state.alarms.restore(told)

    def encounters(self, state: State, moment: int) -> Iterator[dict[str, Any]]:
        """Yields the encounters at a moment from the settled rows of `audit`."""
        now = iso(moment)
        found: dict[tuple[int, int], list[dict[str, Any]]] = {}
        for row in self.rows("rows", moment):
            if row["kind"] == "meeting" and row["begins"] <= now < row["ends"]:
                found.setdefault((min(row["subject"], row["other"]), max(row["subject"], row["other"])), []).append(row)
        for pair, rows in found.items():
            yield state.encounters.settled(pair, rows, moment)
