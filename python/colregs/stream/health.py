"""The health of a stream: its stations and their clocks, its lines, rows and restarts, as JSON lines, with warnings."""
import json
import os
import re
import statistics
import time
from collections.abc import Callable
from dataclasses import dataclass
from typing import Any

from colregs.io.tag_blocks import stamp
from colregs.model.earth import iso

STATION = re.compile(rb"\\(?:[^\\]*,)?s:([^,*\\]+)[,*]")
# s of this machine's clock between two lines of health; also the silence before a warning
EVERY = 60
SHARE = 20                      # warns if at least one in SHARE lines is `late` or a `jump`
LEAST_LINES = 100               # a window with fewer lines gets no such warning
OFF = 60                        # s: a station's clock is off if it differs by more; and the slack of that


def station_of(line: bytes) -> str:
    """Returns the station in a line's tag block, or an empty text."""
    found = STATION.match(line)
    return found[1].decode("ascii", "replace") if found else ""


@dataclass
class Station:
    """A station: its lines, its last stamp, and the distance of its stamps at arrival from the median of all stations,
    in seconds."""

    lines: int = 0
    last: int = 0
    offset: int = 0
    lag: int = 0
    lead: int = 0
    restamped: int = 0
    warned: bool = False

    def take(self, at: int, middle: int) -> None:
        """Takes the stamp of a line, given the median of all stations."""
        self.offset = at - middle
        self.lag, self.lead = max(self.lag, middle - at), max(self.lead, at - middle)


class Health:
    """Counts lines and rows, and writes one line per minute to DIR/health.jsonl."""

    def __init__(self, folder: str, slack: int, say: Callable[[str], None]) -> None:
        self.path, self.slack, self.say = os.path.join(folder, "health.jsonl"), slack, say
        self.stations: dict[str, Station] = {}
        self.lines = self.rows = self.restarts = 0
        self.outcomes: dict[str, int] = {}
        self.window: int | None = None
        self.next, self.heard, self.silent = time.time() + EVERY, time.time(), False

    def middle(self) -> int:
        """Returns the median of the last stamps of all stations."""
        return int(statistics.median_low(station.last for station in self.stations.values()))

    def take(self, line: bytes, restamped: bool) -> None:
        """Takes a line as it arrived; a line without a stamp counts for no station."""
        at, self.lines = stamp(line), self.lines + 1
        if at is None:
            return
        station = self.stations.setdefault(station_of(line), Station())
        station.lines, station.restamped, station.last = station.lines + 1, station.restamped + restamped, at
        station.take(at, self.middle())

    def came(self) -> None:
        """Notes that lines arrived."""
        if self.silent:
            self.say("lines arrive again")
        self.heard, self.silent = time.time(), False

    def ended(self, start: int, counts: dict[str, int]) -> None:
        """Takes the counts of lines of a window, and warns if many were not used."""
        if start == self.window:
            return                                          # another group of this window came before
        self.window, self.outcomes, total = start, dict(counts), sum(counts.values()) - counts.get("outside", 0)
        for name, step in (("late", "a station's clock is ahead, or lines arrive late; see health.jsonl, and give "
                                    "--clock median or a greater log.slack"),
                           ("jump", "two vessels may share an MMSI, or positions are wrong")):
            if total >= LEAST_LINES and counts.get(name, 0) * SHARE > total:
                self.say(f"{counts[name]} of {total} lines of the window from {iso(start)} are `{name}`: {step}")

    def look(self, clock: int | None, vessels: int) -> None:
        """Writes a line if a minute has passed, and warns if no line came in it."""
        now = time.time()
        if now - self.heard > EVERY and not self.silent:
            self.silent = True
            self.say(f"no line arrived for {EVERY} s")
        if now >= self.next:
            self.next = now + EVERY
            self.write(clock, vessels)

    def write(self, clock: int | None, vessels: int) -> None:
        """Writes a line of health, and warns of stations whose clock is off."""
        for name, station in sorted(self.stations.items()):
            if abs(station.offset) > OFF + self.slack and not station.warned:
                station.warned = True
                side = "ahead of" if station.offset > 0 else "behind"
                self.say(f"the clock of the station {name or 'without a name'} is {abs(station.offset)} s {side} the "
                         "clock of most stations")
        told: dict[str, Any] = {
            "clock": None if clock is None else iso(clock), "lines": self.lines, "vessels": vessels, "rows": self.rows,
            "restarts": self.restarts, "stations": {
                name: {
                    "lines": one.lines, "offset": one.offset, "lag": one.lag, "lead": one.lead,
                    "restamped": one.restamped
                }
                for name, one in sorted(self.stations.items())
            }, "last_window": self.outcomes
        }
        with open(self.path, "a", encoding="utf-8") as out:
            out.write(json.dumps(told) + "\n")
