"""Alarms of `watch` as stretches: one from a rule's first broken step to its last, with vessels, place, and marks that
may explain it.

The program writes one row per broken step. Rows of one pair and rule with successive steps make one stretch.
"""
import collections
import itertools
import json
import os
import time
from collections.abc import Callable, Iterator
from dataclasses import dataclass, field
from typing import Any

from colregs.model.earth import Earth, iso
from colregs.model.scenario import Scenario
from colregs.stream.borders import BEFORE, DOUBT
from colregs.stream.day_files import day_of, whole_length
from colregs.stream.fleet import Fleet
from colregs.stream.lately import marks_of, rest_of
from colregs.stream.rows import Sink
from colregs.stream.types import EVER

Key = tuple[int, int, str]      # the vessel that a rule binds, the other one, and the rule
BOTH, AT_REST = "both", "at rest"       # both vessels of a pair are at rest, and the mark of such a stretch
FORGOTTEN = 7200                # s after her last report until a vessel is forgotten
AGAIN = 60                      # s of the stream's clock between two checks for vessels at rest in a stretch
COUNTED = 60                    # s of the clock between two lines with the number of hidden stretches
# s of this machine's clock. Alarms and points come from two runs, so an alarm waits for the points up to its time. A
# vessel may fall silent, so it waits no longer than this after the last point ..
PATIENCE = 5
FOR_PLACE = 60                  # .. and no longer than this in all, which is also the wait if its place is unknown
FOR_ALARMS = 30                 # the end of a stretch waits this long for alarms
# the states of a stretch in a line: two vessels at rest, it begins, it is over
RESTS, BEGINS, OVER = "rests", "begins", "over"


@dataclass
class AlarmStretch:
    """A stretch: the start of its first broken step, the end of its last one, and the end of the step that decided the
    last alarm."""

    number: int
    key: Key
    first: int
    last: int
    decided: int
    alarms: int = 1
    # why one run over the whole stream may not have all of its alarms (colregs/stream/borders.py)
    doubts: set[str] = field(default_factory=set)
    # the numbers of stretches that turned out to be parts of this one
    absorbed: list[int] = field(default_factory=list)


class Stretches:
    """Joins alarms to stretches. `reach` is the look-ahead of the rules in steps: a stretch can grow for so long after
    its last step."""

    def __init__(self, scenario: Scenario) -> None:
        self.tick = scenario.tick
        self.wait = (scenario.reach + 2) * scenario.tick + scenario.gap + scenario.slack
        self.open: dict[Key, list[AlarmStretch]] = {}
        self.numbers = itertools.count(1)

    def take(self, key: Key, step: int, decided: int) -> AlarmStretch:
        """Takes an alarm with the start of its step and the end of the deciding step; returns its stretch."""
        known = self.open.setdefault(key, [])
        near = [one for one in known if one.first - self.tick <= step <= one.last]
        if not near:
            new = AlarmStretch(next(self.numbers), key, step, step + self.tick, decided)
            known.append(new)
            return new
        one = near[0]
        one.alarms += not one.first <= step < one.last
        for other in near[1:]:
            one.first, one.last, one.alarms = min(one.first, other.first), max(one.last,
                                                                               other.last), one.alarms + other.alarms
            one.absorbed += [other.number, *other.absorbed]
            one.doubts |= other.doubts
            known.remove(other)
        one.first, one.last, one.decided = min(one.first, step), max(one.last,
                                                                     step + self.tick), max(one.decided, decided)
        return one

    def is_over(self, one: AlarmStretch, clock: int) -> bool:
        """Returns whether no later alarm can make a stretch longer."""
        return clock > one.last + self.wait

    def is_open(self, one: AlarmStretch) -> bool:
        """Returns whether a stretch is not closed yet: it is not over, or more alarms may arrive."""
        return any(other is one for other in self.open.get(one.key, ()))

    def close(self, one: AlarmStretch) -> None:
        """Forgets a stretch that is over."""
        self.open[one.key].remove(one)
        if not self.open[one.key]:
            del self.open[one.key]

    def over(self, clock: int) -> list[AlarmStretch]:
        """Returns the stretches that are over, in the order of their ends."""
        done = [one for known in self.open.values() for one in known if self.is_over(one, clock)]
        return sorted(done, key=lambda one: (one.last, one.number))


def about(fleet: Fleet, earth: Earth, tick: int, key: Key, first: int, last: int,
          known: tuple[str, list[str]] | None = None) -> dict[str, Any]:
    """Returns the names, types, place and marks of a stretch. The place is the subject's at the start of the first
    step, in degrees. `known` has the vessels at rest and the marks if they are known already."""
    subject, other, _ = key
    place = fleet.place(subject, first)
    still, marks = known or marks_of(fleet, tick, (subject, other), first, last)
    return {
        "subject_name": fleet.name(subject), "other_name": fleet.name(other), "subject_type": fleet.kind_words(subject),
        "other_type": fleet.kind_words(other), "position": earth.degrees(*place) if place else None, "at_rest": still,
        "marks": marks
    }


def alarm_of(row: dict[str, Any], tick: int) -> tuple[Key, int, int]:
    """Returns the pair and rule of an alarm's row, the start of its step, and the end of the step that decides it."""
    fields, start = str(row["row"]).split(","), int(row["run"])
    return (int(fields[1]), int(fields[2]),
            fields[3]), start + int(fields[4]) * tick, start + (int(fields[5]) + 1) * tick


def rows_in(path: str) -> Iterator[dict[str, Any]]:
    """Yields the rows of a file of JSON lines; none if it does not exist."""
    if os.path.exists(path):
        with open(path, encoding="utf-8") as source:
            for line in source:
                if line.endswith("\n"):
                    yield json.loads(line)


class StretchBook:
    """The stretches of a stream with the data of their vessels. It also writes its lines to one file per day, so that a
    restart repeats none."""

    def __init__(self, folder: str, scenario: Scenario, fleet: Fleet, tell: Callable[[dict[str, Any]], None],
                 joined: Callable[[AlarmStretch], None] | None = None, patience: int = PATIENCE) -> None:
        """`tell` gets each line, `joined` each stretch that an alarm has joined, and `patience` is how many seconds to
        wait for late points."""
        self.folder, self.fleet, self.tell, self.joined = folder, fleet, tell, joined
        self.stretches, self.earth = Stretches(scenario), Earth(scenario.values["reference"])
        self.patience = patience
        # the last reported state of each open stretch, and the clock then
        self.states: dict[int, tuple[str, int]] = {}
        self.restored: list[dict[str, Any]] = []                # the lines that an earlier run wrote
        # the reports of an earlier run: the starts of stretches by state, pair and rule
        self.before: dict[tuple[str, Key], set[int]] = {}
        # alarms, each with its arrival
        self.waiting: collections.deque[tuple[dict[str, Any], float]] = collections.deque()
        # by this machine's clock: when to report the end of stretches that are over by the stream's clock
        self.due: dict[int, float] = {}
        self.clock = 0

    def path(self, at: int) -> str:
        """Returns the path of the stretches that begin on the day of a time."""
        return os.path.join(self.folder, day_of(at) + ".stretches")

    def load(self, days: list[str]) -> None:
        """Loads what an earlier run wrote on these days: alarms, and the lines about their stretches."""
        for day in days:
            path = os.path.join(self.folder, day + ".stretches")
            if os.path.exists(path):
                os.truncate(path, whole_length(path))
            for told in rows_in(path):
                self.restored.append(told)
                key = told["subject"], told["other"], told["rule"]
                self.before.setdefault((told["state"], key), set()).add(told["first"])
        for day in days:
            for row in rows_in(os.path.join(self.folder, day + ".rows")):
                if row["kind"] == "alarm":
                    self.join_again(row)

    def told_before(self, state: str, one: AlarmStretch) -> bool:
        """Returns whether an earlier run reported this state of a stretch."""
        return any(one.first <= first < one.last for first in self.before.get((state, one.key), ()))

    def take(self, row: dict[str, Any]) -> None:
        """Takes an alarm's row. The alarm waits for the points up to its time, because they come from another run."""
        self.waiting.append((row, time.monotonic()))
        self.release(False)

    def release(self, all_of_them: bool) -> None:
        """Joins the alarms that no longer need to wait."""
        while self.waiting:
            row, came = self.waiting[0]
            if not all_of_them and self.may_learn_more(row, came):
                return
            self.waiting.popleft()
            self.join(row)

    def may_learn_more(self, row: dict[str, Any], came: float) -> bool:
        """Returns whether points up to the time of an alarm may still arrive."""
        (subject, _, _), first, decided = alarm_of(row, self.stretches.tick)
        if decided <= self.fleet.clock:
            return False
        until = came + max(FOR_PLACE, self.patience)
        if self.fleet.place(subject, first) is not None:
            until = min(until, max(came, self.fleet.arrived) + self.patience)
        return time.monotonic() < until

    def join(self, row: dict[str, Any]) -> None:
        """Joins an alarm to its stretch."""
        one = self.extended(row)
        for number in one.absorbed:
            self.states.pop(number, None)
            self.due.pop(number, None)
        state, at = self.states.get(one.number, ("", 0))
        if not state or state == RESTS and self.clock >= at + AGAIN:
            self.look(one, state)

    def extended(self, row: dict[str, Any]) -> AlarmStretch:
        """Adds an alarm to its stretch; returns the stretch."""
        one = self.stretches.take(*alarm_of(row, self.stretches.tick))
        one.doubts |= {mark for mark in (BEFORE, DOUBT) if mark in row}
        self.due.pop(one.number, None)
        if self.joined:
            self.joined(one)
        return one

    def join_again(self, row: dict[str, Any]) -> None:
        """Joins an alarm of an earlier run. If that run stopped before it reported the alarm, the alarm waits like a
        new one."""
        one = self.extended(row)
        state = next((state for state in (BEGINS, RESTS) if self.told_before(state, one)), None)
        if state:
            self.states[one.number] = state, 0
        else:
            self.waiting.append((row, time.monotonic()))

    def look(self, one: AlarmStretch, before: str) -> None:
        """Reports that a stretch began, or that both its vessels are at rest."""
        state = RESTS if rest_of(self.fleet, one.key[:2], one.first, one.last) == BOTH else BEGINS
        self.states[one.number] = state, self.clock
        if state != before and not self.told_before(state, one):
            self.write(one, state)

    def write(self, one: AlarmStretch, state: str, rested: bool = False) -> None:
        """Reports a stretch, and stores its state. `rested` is true if it is over and both vessels were at rest all the
        time."""
        subject, other, rule = one.key
        told = {
            "mode": "watch", "kind": "stretch", "state": state, "subject": subject, "other": other, "rule": rule,
            "begins": iso(one.first), "ends": iso(one.last), "decided": iso(one.decided), "alarms": one.alarms,
            "first": one.first, "last": one.last, "rested": rested or state == RESTS, **about(
                self.fleet, self.earth, self.stretches.tick, one.key, one.first, one.last)
        } | {mark: True for mark in sorted(one.doubts)}
        self.tell(told)
        with open(self.path(one.first), "a", encoding="utf-8") as out:
            out.write(json.dumps(told, ensure_ascii=False) + "\n")

    def pass_time(self, clock: int) -> None:
        """Reports the stretches that are over by now. The clock can be ahead of the alarms, so each stretch first waits
        for alarms that may still arrive."""
        self.clock, now = clock, time.monotonic()
        self.release(False)
        for one in self.stretches.over(clock):
            if now >= self.due.setdefault(one.number, now + max(FOR_ALARMS, self.patience)):
                self.end(one)

    def end(self, one: AlarmStretch) -> None:
        """Reports that a stretch is over."""
        self.stretches.close(one)
        self.due.pop(one.number, None)
        if (state := self.states.pop(one.number, None)) and not self.told_before(OVER, one):
            self.write(one, OVER, state[0] == RESTS)

    def finish(self, is_whole: bool) -> None:
        """Joins the waiting alarms; if the stream ended for good, all stretches are over."""
        self.release(True)
        if is_whole:
            for one in self.stretches.over(EVER):
                self.end(one)


class StretchSink:
    """A sink that writes one line when a stretch of alarms begins and one when it is over, instead of one line per
    alarm. It passes on other rows unchanged.

    It only counts stretches of pairs at rest, unless `all_pairs` is true.
    """

    def __init__(self, sink: Sink, scenario: Scenario, folder: str, all_pairs: bool, patience: int = PATIENCE) -> None:
        self.sink, self.all_pairs = sink, all_pairs
        self.fleet = Fleet(scenario.gap)
        self.book = StretchBook(folder, scenario, self.fleet, self.tell, patience=patience)
        self.clock = 0
        self.count = 0                                  # stretches of pairs at rest
        self.counted = 0, 0                             # their number at the last line with it, and the clock then

    def load(self, days: list[str]) -> None:
        """Loads the files that an earlier run wrote on these days."""
        self.book.load(days)

    def lines(self, lines: list[bytes], clock: int) -> None:
        """Takes lines of the stream."""
        for line in lines:
            self.fleet.take_line(line, clock)

    def points(self, rows: list[str]) -> None:
        """Takes rows of `points`."""
        for row in rows:
            self.fleet.take_point(row)

    def passed(self, clock: int) -> None:
        """Takes the time of the stream's clock."""
        self.clock = clock
        self.book.pass_time(clock)
        self.fleet.gone.clear()
        self.fleet.forget(clock - FORGOTTEN)
        count, at = self.counted
        if count != self.count and clock >= at + COUNTED:
            self.tell_count(clock)

    def ended(self) -> None:
        """Handles the final end of a stream."""
        self.book.finish(True)

    def write(self, line: str) -> None:
        """Takes a row of the stream as a line of JSON."""
        row = json.loads(line)
        if row["kind"] == "alarm":
            self.book.take(row)
        else:
            self.sink.write(line)

    def tell(self, told: dict[str, Any]) -> None:
        """Writes a stretch, or counts it."""
        self.count += told["state"] == RESTS
        if told["rested"] and not self.all_pairs:
            return
        told = {name: value for name, value in told.items() if name not in ("first", "last", "rested")}
        self.sink.write(
            json.dumps(told | {"state": OVER if told["state"] == OVER else BEGINS}, ensure_ascii=False) + "\n")

    def tell_count(self, clock: int) -> None:
        """Writes the number of stretches of pairs at rest that were not written since the start."""
        self.counted = self.count, clock
        self.sink.write(
            json.dumps({"mode": "watch", "kind": "hidden", "stretches": self.count, "until": iso(clock)}) + "\n")

    def close(self) -> None:
        """Writes the remaining lines, and ends."""
        self.book.finish(False)
        if self.counted[0] != self.count:
            self.tell_count(self.clock)
        self.sink.close()
