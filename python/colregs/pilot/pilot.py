"""The loop of the pilot, one step at a time: the window, the question, the answer and the decision. Live streams and
trials run this code."""
from __future__ import annotations

from collections.abc import Callable
from dataclasses import dataclass
from typing import Protocol, TypeVar

from colregs.pilot.motion import Place
from colregs.pilot.planner import Patience, Planner, Question
from colregs.pilot.runner import Report
from colregs.pilot.scenario import MOST_TICKS, PilotScenario, Window
from colregs.pilot.situation import Meeting, Sighting, lasting_meetings, latest_sightings, names_of
from colregs.pilot.states import Answer, Cause, Decision, Memory, Track, decide, held_order

LONG = 1800            # s: a window this long is cut to the current meetings, unless they were computed before
BEFORE = 6             # ticks from the start of a window to the oldest current meeting


Found = TypeVar("Found")


def read(reader: Callable[[Report], Found], report: Report) -> Found | None:
    """Returns the result of `reader` on a report; None if the report is incomplete or has rows that the program does
    not write."""
    try:
        return reader(report) if report.status == 0 else None
    except (IndexError, ValueError):
        return None


class Log(Protocol):
    """Sentences by their times."""

    def begins(self) -> int | None:
        """Returns the time of the oldest line, or None without lines."""
        ...

    def log(self, begins: int, ends: int) -> bytes:
        """Returns the lines from one time to another."""
        ...


@dataclass(frozen=True)
class Scene:
    """What the program finds in a window in addition to a plan: the vessels' places, and own ship's current
    meetings."""

    sightings: dict[int, Sighting]
    meetings: list[Meeting]
    names: dict[int, tuple[str, int]]      # the name and the length in metres of each vessel


class Pilot:
    """Own ship's pilot: returns a decision at each moment, and remembers the plan that it follows."""

    def __init__(self, scenario: PilotScenario, planner: Planner, history: int) -> None:
        """`history` is the greatest number of seconds that a window reaches back."""
        self.scenario, self.planner = scenario, planner
        self.history = min(history, MOST_TICKS * scenario.tick)
        self.memory, self.start, self.window = Memory(), -1, Window(0, scenario.tick, 1)
        self.cut = False           # whether a current meeting began before the window

    def open_window(self, log: Log, now: int) -> Window:
        """Returns the window that ends at the last tick up to now. Ticks are at whole multiples since the Unix epoch,
        so that all windows share them."""
        tick = self.scenario.tick
        end = now // tick * tick
        first = log.begins()
        if self.start < 0 or self.start >= end:
            self.start = (end if first is None else min(first, end)) // tick * tick - tick
        self.start = max(self.start, (end - self.history) // tick * tick)
        self.window = Window(self.start, tick, max(1, (end - self.start) // tick))
        return self.window

    def lines(self, log: Log, window: Window) -> bytes:
        """Returns the lines that the program may read for a window: from one gap before its first tick."""
        return log.log(window.start - self.scenario.gap, window.ends)

    def scene(self, log: Log, now: int, patience: Patience) -> Scene:
        """Returns the vessels' places and the current meetings, and cuts the window to these meetings."""
        window = self.open_window(log, now)
        lines, text = self.lines(log, window), self.scenario.text(window, subjects=(self.scenario.own,))
        points = self.planner.runner.report("points", text, lines, timeout=patience.left())
        audit = self.planner.runner.report("audit", text, lines, timeout=patience.left())
        return Scene(read(latest_sightings, points) or {}, self.lasting(window, audit), read(names_of, audit) or {})

    def lasting(self, window: Window, audit: Report) -> list[Meeting]:
        """Returns own ship's current meetings, and lets the next window begin before the oldest one."""
        meetings = read(lambda rows: lasting_meetings(rows, self.scenario.own, window, self.scenario.gap), audit)
        if meetings is None:
            return []
        begins = min([meeting.begins
                      for meeting in meetings] + [window.ends - self.scenario.gap]) - BEFORE * window.tick
        self.cut = any(meeting.begins <= window.start
                       for meeting in meetings) and window.ends - window.start >= self.history
        self.start = max(self.start, begins // window.tick * window.tick)
        return meetings

    def shorten(self, log: Log, now: int, patience: Patience) -> None:
        """Cuts a long window to the current meetings. This does not change the plan, because no current meeting began
        before."""
        window = self.open_window(log, now)
        if window.ends - window.start > LONG:
            text = self.scenario.text(window, subjects=(self.scenario.own,))
            self.lasting(window,
                         self.planner.runner.report("audit", text, self.lines(log, window), timeout=patience.left()))

    def step(self, log: Log, now: int, track: Track, reported: Track | None, seconds: float = 60, recheck: bool = True,
             place: Place | None = None) -> Decision:
        """Returns the decision at a time for a track.

        `reported` has the course and speed of own ship's latest report; `place` is her place, which areas need.
        """
        window = self.open_window(log, now)
        holding = held_order(self.memory, window.ends) or self.memory.order
        answer = self.planner.ask(Question(window, self.lines(log, window), track, reported, holding, seconds, place),
                                  recheck)
        return self.settle(answer, window.ends, track)

    def stalled(self, now: int, track: Track, words: str) -> Decision:
        """Returns the decision if the input is stale, without asking the program."""
        return self.settle(Answer(cause=Cause.STALE, words=words), now, track)

    def settle(self, answer: Answer, now: int, track: Track) -> Decision:
        """Returns the decision that follows from an answer, and remembers it."""
        self.memory, decision = decide(self.memory, answer, now, track)
        return decision
