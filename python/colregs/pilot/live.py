"""The pilot over a stream: takes lines as they arrive, and writes an order for own ship at a fixed interval, even if
something fails."""
from __future__ import annotations

import queue
import threading
import time
from collections.abc import Callable
from dataclasses import dataclass

from colregs.errors import Fault, reason
from colregs.io.sources import stamped
from colregs.io.tag_blocks import stamp
from colregs.pilot.areas import Barrier
from colregs.pilot.lines import Moment
from colregs.pilot.motion import Place
from colregs.pilot.pilot import Pilot, Scene
from colregs.pilot.planner import Patience
from colregs.pilot.record import Record
from colregs.pilot.route import Wanted
from colregs.pilot.situation import Target, targets_of
from colregs.pilot.states import Decision, Plan
from colregs.stream.day_files import Clock
from colregs.stream.sources import Source

BLOCKS = 64                # the most blocks of lines in the queue
SHARE = 0.9                # the share of the interval between two lines that an answer may take
LATE = 0.5                 # the share after which an answer is late


@dataclass(frozen=True)
class Pace:
    """The interval between two lines, and the age at which input is stale, in seconds."""

    every: int
    stale: int
    by_log: bool           # whether the clock is the log's own, for a log that is replayed


class StreamClock:
    """The time of an arriving stream: the time of its latest line, plus the seconds since that line arrived."""

    def __init__(self, is_live: bool) -> None:
        """`is_live` adds the seconds since the latest line arrived."""
        self.clock, self.is_live = Clock(), is_live
        self.arrived = self.heard = time.monotonic()

    def take(self, line: bytes) -> int | None:
        """Takes a line; returns the time of the stream, or None if no line had a time yet."""
        before = self.clock.time
        now = self.clock.take(line)
        self.heard = time.monotonic()
        if now != before:
            self.arrived = self.heard
        return now

    def now(self) -> int | None:
        """Returns the time now, in seconds since the Unix epoch, or None if no line had a time yet."""
        passed = int(time.monotonic() - self.arrived) if self.is_live else 0
        return None if self.clock.time is None else self.clock.time + passed


class Live:
    """A pilot with its stream. It passes each output line to `write`."""

    def __init__(self, pilot: Pilot, wanted: Wanted, pace: Pace, write: Callable[[Moment], None],
                 barrier: Barrier | None = None, gives_times: bool = False, recheck: bool = True) -> None:
        """`wanted` is own ship's track or route; `gives_times` gives bare sentences their arrival time."""
        self.pilot, self.wanted, self.pace, self.write, self.barrier = pilot, wanted, pace, write, barrier
        self.gives_times, self.recheck = gives_times, recheck
        self.record = Record(pilot.history + pilot.scenario.gap)
        self.clock, self.untimed, self.over = StreamClock(not pace.by_log), 0, ""
        self.waiting: queue.Queue[list[bytes] | str] = queue.Queue(BLOCKS)
        self.due: int | None = None

    # the input

    def read(self, source: Source) -> None:
        """Puts the lines of a source into the queue, and then the reason why the source ended."""
        try:
            for lines, _ in source.lines():
                self.waiting.put(lines)
            self.waiting.put("the input ended")
        except (Fault, OSError) as error:
            self.waiting.put(f"the input failed: {reason(error) if isinstance(error, OSError) else error}")

    def take(self, line: bytes) -> None:
        """Takes a line. A line without a time gets the time of the previous line; before the first time it is only
        counted."""
        line = stamped(line.rstrip(b"\r\n"), int(time.time())) if self.gives_times else line.rstrip(b"\r\n")
        now = self.clock.take(line)
        if now is None:
            self.untimed += b"!" in line
            return
        if self.pace.by_log:
            self.write_due(now)
        own = stamp(line)
        self.record.take(line, now if own is None else min(own, now))

    def take_block(self, block: list[bytes] | str) -> None:
        """Takes an item of the queue: lines, or the reason why the source ended."""
        if isinstance(block, str):
            self.over = block
        else:
            for line in block:
                self.take(line)

    # the loop

    def run(self, source: Source, stop: threading.Event, ends: bool) -> None:
        """Writes until `stop` is set, or, with `ends`, until the stream ends."""
        threading.Thread(target=self.read, args=(source,), daemon=True).start()
        following = time.monotonic() + self.pace.every
        while not stop.is_set() and not (ends and self.over):
            wait = 0.2 if self.pace.by_log else min(0.2, max(0.0, following - time.monotonic()))
            try:
                self.take_block(self.waiting.get(timeout=wait) if wait else self.waiting.get_nowait())
            except queue.Empty:
                pass
            if not self.pace.by_log and time.monotonic() >= following:
                self.take_all()
                self.write(self.moment())
                following = max(following + self.pace.every, time.monotonic())
        if ends and not stop.is_set() and self.clock.now() is not None:
            self.write(self.moment())
        source.stop()

    def take_all(self) -> None:
        """Takes the lines that have arrived, at most one full queue, so that a flood of lines delays no answer."""
        for _ in range(BLOCKS):
            try:
                self.take_block(self.waiting.get_nowait())
            except queue.Empty:
                return

    def write_due(self, now: int) -> None:
        """Writes the lines that are due before a time of the log, for a log that is replayed."""
        every = self.pace.every
        if self.due is None:
            self.due = now // every * every + every
        while self.due <= now:
            self.write(self.moment(self.due))
            self.due += every

    # a moment

    def moment(self, at: int | None = None) -> Moment:
        """Returns the content of the line for now, or for a time of the log."""
        begin, now = time.monotonic(), at or self.clock.now()
        age = self.input_age(now)
        words = self.stale_words(now, age)
        scene, took, notes = Scene({}, [], {}), None, list[str]()
        if words:
            now = now or int(time.time())
            track = self.wanted.track_at(None)
            decision = self.pilot.stalled(now, track, words)
        else:
            now = now or 0
            patience = Patience(self.pace.every * SHARE if not self.pace.by_log else 60)
            scene = self.pilot.scene(self.record, now, patience)
            place = self.place(scene, now)
            track = self.wanted.track_at(place)
            own = scene.sightings.get(self.pilot.scenario.own)
            decision = self.pilot.step(self.record, now, track, own.track if own else None, patience.left(),
                                       self.recheck, place)
            took = time.monotonic() - begin
            notes += self.notes(place, took)
        own = scene.sightings.get(self.pilot.scenario.own)
        late = took is not None and took > LATE * self.pace.every
        return Moment(now, decision, track, self.pilot.window, self.targets(scene, decision, now), scene.names, age,
                      now - own.time if own else None, None if self.pace.by_log else took, late
                      and not self.pace.by_log, tuple(notes))

    def input_age(self, now: int | None) -> float:
        """Returns the seconds since the latest line arrived; for a log that is replayed, the age of that line."""
        if self.pace.by_log:
            return float(max(0, (now or 0) - self.last_time()))
        return time.monotonic() - self.clock.heard

    def last_time(self) -> int:
        """Returns the time of the latest stored line."""
        return self.record.lines[-1][0] if self.record.lines else 0

    def stale_words(self, now: int | None, age: float) -> str:
        """Returns why there is no input for a plan, or an empty text."""
        if now is None:
            more = ": no line has a time; use --now, or give times with colregs-tagged" if self.untimed else ""
            return "no line with a time has arrived yet" + more
        if age > self.pace.stale:
            return f"no line has arrived for {age:.0f} s" + (f": {self.over}" if self.over else "")
        return ""

    def place(self, scene: Scene, now: int) -> Place | None:
        """Returns own ship's place now, or None if she is not seen."""
        own = scene.sightings.get(self.pilot.scenario.own)
        return own.at(now) if own else None

    def notes(self, place: Place | None, took: float) -> list[str]:
        """Returns notes for the reader in addition to the decision."""
        notes = []
        if took > LATE * self.pace.every and not self.pace.by_log:
            notes.append(f"late: the answer took {took:.1f} of {self.pace.every} s")
        if self.pilot.cut:
            notes.append("a current meeting began before the stored history, so its kind may differ")
        inside = self.barrier.holding(place) if self.barrier else []
        if inside:
            notes.append("own ship is inside " + ", ".join(f"`{name}`" for name in inside))
        return notes

    def targets(self, scene: Scene, decision: Decision, now: int) -> list[Target]:
        """Returns the targets at a moment, with the closest approach along the legs that own ship steers."""
        plan = Plan(0, now, decision.legs) if decision.legs else None
        return targets_of(self.pilot.scenario, scene.sightings, scene.meetings, plan,
                          now // self.pilot.scenario.tick * self.pilot.scenario.tick)
