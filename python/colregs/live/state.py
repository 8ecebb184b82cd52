"""The state of a stream that pages show: vessels, encounters, alarms, verdicts and health, and its changes.

The thread that follows the stream writes it and the server's thread reads it; a lock protects it.
"""
import collections
import json
import threading
import time
from collections.abc import Iterable, Mapping
from dataclasses import dataclass, field
from typing import Any

from colregs.io.tag_blocks import stamp
from colregs.live.alarms import Alarms, Span
from colregs.live.encounters import Encounters
from colregs.live.notes import Note, Notes
from colregs.model.earth import Earth
from colregs.model.rows import Meeting
from colregs.model.scenario import Scenario
from colregs.model.tracks import NONE
from colregs.stream.borders import AFTER, BEFORE, DOUBT
from colregs.stream.day_files import days_in, lines_of
from colregs.stream.fleet import About, Fleet, Ship
from colregs.stream.lately import rest_of
from colregs.stream.stretches import AT_REST, BOTH, FORGOTTEN, Key, StretchBook, about, rows_in

ROWS, MARKS = ("meeting", "verdict"), (BEFORE, AFTER, DOUBT)
MOST_ROWS = 500                 # the latest settled rows of `audit`, which are listed
EACH, MOST_PLACES = 30, 60      # s between two places of a track in a snapshot, and their number at most
SECOND = 1.0                    # s of this machine's clock between two checks of encounters, and of what is over
Values = dict[str, Any]


@dataclass
class Answer:
    """The program's answer to a window so far: meetings, broken stretches, lines by outcome; or why it failed."""

    start: int
    clock: int
    meetings: list[Meeting] = field(default_factory=list)
    broken: dict[Key, list[Span]] = field(default_factory=dict)
    counts: dict[str, int] = field(default_factory=dict)
    seconds: float = 0.0
    fault: str = ""


class Rows:
    """The last settled rows of `audit`."""

    def __init__(self) -> None:
        self.all: collections.deque[Values] = collections.deque(maxlen=MOST_ROWS)
        self.new: list[Values] = []
        self.number = 0

    def add(self, row: Mapping[str, Any], names: tuple[str, str]) -> None:
        """Adds a row."""
        self.number += 1
        kept = {
            name: row[name]
            for name in ("kind", "subject", "other", "rule", "value", "encounter", "least", "begins", "ends",
                         *MARKS)
            if name in row
        }
        value = {"id": self.number, "subject_name": names[0], "other_name": names[1], **kept}
        self.all.append(value)
        self.new.append(value)


def first_time(lines: Iterable[bytes]) -> int | None:
    """Returns the time of the first line that has one, or None if no line has."""
    return next((at for line in lines if (at := stamp(line)) is not None), None)


class State:
    """Everything that a page shows. It listens to the stream and receives its rows."""

    def __init__(self, folder: str, scenario: Scenario, notes: Notes) -> None:
        self.folder, self.scenario, self.notes, self.lock = folder, scenario, notes, threading.RLock()
        self.earth, self.fleet = Earth(scenario.values["reference"]), Fleet(scenario.gap)
        self.book = StretchBook(folder, scenario, self.fleet, self.tell, self.joined)
        self.alarms = Alarms(self.book.stretches, notes, self.about_of)
        self.encounters, self.rows = Encounters(self.fleet, scenario.tick, scenario.ranks), Rows()
        self.clock: int | None = None
        self.first: int | None = None           # the earliest time of the day files
        self.answered: Answer | None = None
        self.health: Values = {}
        self.said: Values = {}                  # the health that was sent last
        self.lines_taken = self.rows_taken = 0
        self.came: float | None = None          # when the last line came, by this machine's clock
        self.looked = 0.0
        self.is_over = False

    # the listener

    def load(self, days: list[str]) -> None:
        """Loads the files that an earlier run wrote on these days."""
        with self.lock:
            every = (lines_of(f"{self.folder}/{day}.log") for day in days_in(self.folder))
            self.first = first_time(line for lines in every for line in lines)
            self.book.load(days)
            for told in self.book.restored:
                self.alarms.told(told)
            for day in days:
                for row in rows_in(f"{self.folder}/{day}.rows"):
                    if row["kind"] in ROWS:
                        self.rows.add(row, (str(row["subject"]), str(row["other"])))

    def lines(self, lines: list[bytes], clock: int) -> None:
        """Takes lines of the stream."""
        with self.lock:
            if self.first is None:
                self.first = min(clock, first_time(lines) or clock)        # the clock is at the end of these lines
            self.set_clock(clock)
            self.came = time.time()
            self.lines_taken += len(lines)
            for line in lines:
                self.fleet.take_line(line, clock)

    def set_clock(self, clock: int) -> None:
        """Takes the time of the stream's clock."""
        self.clock = self.alarms.clock = clock
        self.first = clock if self.first is None else self.first

    def points(self, rows: Iterable[str]) -> None:
        """Takes rows of `points`."""
        with self.lock:
            for row in rows:
                self.fleet.take_point(row)

    def passed(self, clock: int) -> None:
        """Takes the time of the stream's clock after its rows."""
        with self.lock:
            self.set_clock(clock)
            self.book.pass_time(clock)

    def ended(self) -> None:
        """Handles the end of a stream that does not continue."""
        with self.lock:
            self.book.finish(True)
            self.is_over = True

    # the sink

    def write(self, line: str) -> None:
        """Takes a row of the stream as a line of JSON."""
        row = json.loads(line)
        with self.lock:
            self.rows_taken += 1
            if row["kind"] == "alarm":
                self.book.take(row)
            elif row["kind"] in ROWS:
                self.rows.add(row, (self.fleet.name(row["subject"]), self.fleet.name(row["other"])))

    def close(self) -> None:
        """Joins the alarms that still wait."""
        with self.lock:
            self.book.finish(False)

    # called by the stretches

    def joined(self, one: Any) -> None:
        """Takes a stretch that an alarm has joined."""
        self.alarms.settle(one)

    def tell(self, told: Values) -> None:
        """Takes a line about a stretch."""
        self.alarms.told(told)

    def about_of(self, key: Key, first: int, last: int, before: Values) -> Values:
        """Returns names, types, place and marks of a stretch. Marks take a while to compute, so a stretch has its old
        marks until it settles. Stretches of two vessels at rest are many and hidden, so they get that mark alone."""
        still = rest_of(self.fleet, key[:2], first, last)
        marks = [AT_REST] if still == BOTH else before.get("marks") if before.get("at_rest") == still else None
        known = None if marks is None else (still, marks)
        return about(self.fleet, self.earth, self.scenario.tick, key, first, last, known)

    # the answers and the browsers

    def answer(self, answer: Answer) -> None:
        """Handles an answer of the program to the window so far."""
        with self.lock:
            self.answered = answer
            self.encounters.answer(answer.meetings, answer.start)
            # a step is decided only after the rules' look-ahead, and settles after that
            self.alarms.answer(answer.broken, answer.clock - self.book.stretches.wait, not answer.fault)
            self.looked = 0.0

    def acknowledge(self, name: str, acknowledged: bool, words: str, at: int) -> Values | None:
        """Stores an acknowledgement of an alarm; returns the alarm, or None if no alarm has this name."""
        with self.lock:
            item = self.alarms.items.get(name)
            if item is None:
                return None
            key, first, last = item.key, item.first, item.last
        self.notes.add(key, Note(first, last, acknowledged, words, at))
        with self.lock:
            self.alarms.changed.add(name)
            return self.alarms.values(item)

    def set_health(self, health: Values) -> None:
        """Sets the health of the server and of the stream."""
        with self.lock:
            self.health = health

    # for snapshots and changes

    def place(self, ship: Ship, k: int = -1) -> list[float]:
        """Returns longitude and latitude of a report."""
        return self.earth.degrees(ship.track.xs[k], ship.track.ys[k])

    def vessel(self, ship: Ship) -> list[Any]:
        """Returns a vessel for a change: MMSI, time, longitude, latitude, speed in knots, course and heading in
        degrees."""
        track, known = ship.track, self.fleet.about.get(ship.mmsi)
        speed, course = track.speeds[-1], track.courses[-1]
        return [
            ship.mmsi, ship.latest, *self.place(ship), None if speed == NONE else speed / 10,
            None if course == NONE else course / 10, known.heading if known else None
        ]

    def track(self, ship: Ship) -> list[float]:
        """Returns the track of a vessel for a snapshot: time, longitude and latitude of each of its last places, in one
        flat list."""
        found: list[float] = []
        before, times = None, ship.track.times
        for k in range(len(times) - 1, -1, -1):
            if before is None or before - times[k] >= EACH:
                before = times[k]
                found += [times[k], *self.place(ship, k)]
                if len(found) >= 3 * MOST_PLACES:
                    break
        return found

    def said_of(self, mmsi: int, known: About) -> Values:
        """Returns the static data that a vessel sends."""
        return {
            "mmsi": mmsi, "name": known.name, "type": self.fleet.kind_words(mmsi), "length": known.length,
            "status": self.fleet.status_words(mmsi)
        }

    def snapshot(self) -> Values:
        """Returns the whole state."""
        with self.lock:
            ships = list(self.fleet.ships.values())
            return {
                "clock": self.clock, "vessels": [self.vessel(ship) for ship in ships], "tracks": {
                    ship.mmsi: self.track(ship)
                    for ship in ships
                }, "about": [self.said_of(mmsi, known) for mmsi, known in self.fleet.all_about()],
                "alarms": [self.alarms.values(item) for item in self.alarms.items.values()],
                "encounters": self.encounters.all_values(self.clock
                                                         or 0), "rows": list(self.rows.all), "health": self.health
            }

    def change(self) -> Values:
        """Returns the changes since the last call; an empty dictionary if there are none."""
        with self.lock:
            fleet, alarms, clock = self.fleet, self.alarms, self.clock
            encounters = self.pass_time(clock)
            parts: Values = {
                "vessels": [self.vessel(fleet.ships[mmsi]) for mmsi in fleet.moved if mmsi in fleet.ships], "about": [
                    self.said_of(mmsi, fleet.about.get(mmsi, About())) for mmsi in fleet.told if mmsi in fleet.ships
                ], "gone": list(fleet.gone),
                "alarms": [alarms.values(alarms.items[name]) for name in alarms.changed if name in alarms.items],
                "dropped": list(alarms.dropped), "rows": self.rows.new, **encounters
            }
            if self.health != self.said:
                parts["health"] = self.said = self.health
            found = {name: value for name, value in parts.items() if value}
            for vessels in (fleet.moved, fleet.gone, fleet.told):
                vessels.clear()
            for names in (alarms.dropped, alarms.changed):
                names.clear()
            self.rows.new = []
            return {"clock": clock, **found} if found else {}

    def pass_time(self, clock: int | None) -> Values:
        """Ends encounters and alarms that are over, at most once a second; returns the encounters that changed."""
        now = time.monotonic()
        if clock is None or now < self.looked + SECOND:
            return {}
        self.looked = now
        self.fleet.forget(clock - FORGOTTEN)
        self.alarms.pass_time(clock)
        changed, over = self.encounters.changes(clock)
        return {"encounters": changed, "over": over}
