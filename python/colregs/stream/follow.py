"""Follows an endless stream with overlapping runs of the program, and writes each of their rows once.

Windows begin at whole multiples of `every`, so that a restart makes the same ones, and each overlaps the next. A row
belongs to the window whose own steps contain its end. docs/TRAFFIC_SERVICE.md says why each row then appears once, and
under which conditions.
"""
import argparse
import dataclasses
import itertools
import json
import os
import queue
import select
import tempfile
import threading
import time
from collections.abc import Collection, Iterator
from types import TracebackType
from typing import Protocol

from colregs.errors import DONE, FAILED, Fault, report
from colregs.io.files import replace
from colregs.io.sieve import Senders
from colregs.io.sources import stamped
from colregs.model.formulas import Sight, sight_of
from colregs.model.scenario import MOST_SUBJECTS, Scenario
from colregs.run.limits import STATUS, limit_of, next_step
from colregs.shares.heads import STRADDLE
from colregs.stream.agreements import Agreements
from colregs.stream.areas import AreaRun
from colregs.stream.borders import AFTER, DIFFERS, Border, Borders, Marks
from colregs.stream.day_files import Clock, DayFiles, Mark, MedianClock, Timed, lines_of
from colregs.stream.health import Health
from colregs.stream.rows import Sink, Written, steps_of
from colregs.stream.runs import StreamRun, Window, WindowRun
from colregs.stream.sources import Lines, Source
from colregs.stream.types import StreamTypes

WAITING, MOST_RUNS = 16, 12      # the most waiting blocks of lines; lines wait if more runs than this are left
PAUSE, TOGETHER = 0.05, 1000     # s for which lines and rows wait for more of them; lines that are taken together
LEAST, MOST = 200000000, 799999999
MARK = 600                       # s
NEW = 10                         # s of the clock between searches for vessels without a group
MOST_RESTARTS = 5                # of one killed run


class Numbers:
    """The layout of windows: their starts, and each window's own steps."""

    def __init__(self, scenario: Scenario, every: int, overlap: int) -> None:
        self.tick, self.every, self.ticks = scenario.tick, every, every + overlap
        self.gap, self.more = scenario.gap, scenario.gap + scenario.slack
        self.length = every * scenario.tick
        self.warm = scenario.steps(max(scenario.gap, STRADDLE)) + 1     # steps until it agrees with the window before
        self.reach, self.last = scenario.reach, scenario.settled(self.ticks)
        self.behind = self.last - every                # the last step that belongs to the window before

    def starts(self, clock: int) -> Iterator[int]:
        """Yields the starts of the open windows at a time of the clock."""
        k = max(0, (clock - self.ticks * self.tick - self.more) // self.length)
        while k * self.length - self.gap <= clock:
            if not self.is_over(k * self.length, clock):
                yield k * self.length
            k += 1

    def is_over(self, start: int, clock: int) -> bool:
        """Returns whether no later line can change a window."""
        return clock > start + self.ticks * self.tick + self.more

    def settled(self, start: int, clock: int, mode: str) -> int:
        """Returns the last step that the clock settles; rows up to it are final."""
        behind = 1 if mode == "watch" else self.reach + 2
        return -(-(clock - self.more - start) // self.tick) - 1 - behind


class Listener(Protocol):
    """An observer of a followed stream. With a listener, each window also has a run of `points`, and new lines wait
    while the runs are behind."""

    def load(self, days: list[str]) -> None:
        """Loads what an earlier run wrote to the day files of these days."""

    def lines(self, lines: list[bytes], clock: int) -> None:
        """Takes lines in the form of the day files, with the time of the clock after them."""

    def points(self, rows: list[str]) -> None:
        """Takes rows of `points`."""

    def passed(self, clock: int) -> None:
        """Takes the time of the clock, after the lines and rows so far."""

    def ended(self) -> None:
        """Handles the final end of a stream, after its last row."""


POINTS = "points"                # the rows of this mode go only to a listener
CHECKS = "checks"                # and those of this one, which are also of `points`, to the comparison of windows


class Follow:
    """A followed stream: its day files, the runs over its windows, and the written rows. Close it, or use it in a
    `with` statement."""

    def __init__(self, given: argparse.Namespace, scenario: Scenario, program: str, sink: Sink,
                 listener: Listener | None = None) -> None:
        self.given, self.scenario, self.program, self.sink, self.listener = given, scenario, program, sink, listener
        self.numbers = Numbers(scenario, given.every, -(-given.overlap // scenario.tick))
        self.files, self.senders = DayFiles(given.days), Senders()
        self.clock: Clock | MedianClock = MedianClock(scenario.slack) if given.clock == "median" else Clock()
        self.health = Health(given.days, scenario.slack, self.say)
        self.written, self.types = Written(given.days, sink), StreamTypes(given.days, scenario.slack, scenario.ranks)
        self.agreements = Agreements(scenario, self.numbers.length, self.numbers.ticks * scenario.tick,
                                     self.numbers.warm)
        self.borders = Borders(self.numbers.last, given.every + self.numbers.warm, given.every, self.numbers.length,
                               sights_of(scenario), self.say, self.numbers.reach)
        # alarms are marked by what `audit` says of their pairs, also if its rows are not asked for
        self.modes = list(dict.fromkeys([*given.modes, "audit"]))
        self.restarts: dict[tuple[int, str, frozenset[int] | None], int] = {}     # of runs that were killed
        self.windows: dict[int, Window] = {}            # those that are open, by their starts
        self.over: set[int] = set()                     # the starts of those that are closed
        self.runs: set[WindowRun] = set()
        self.earliest: dict[str, int] = {}              # by mode: the first start of a window with a run, if known
        self.heard: dict[int, int] = {}                 # by vessel: the clock when she was last heard
        self.held: list[tuple[WindowRun, list[str]]] = []       # rows that wait for the rows of earlier windows
        self.ending: dict[int, WindowRun] = {}          # by start: windows without a run that wait for earlier windows
        self.room = tempfile.TemporaryDirectory()
        self.grouped, self.cut, self.faults = False, False, 0
        self.failed: Fault | OSError | None = None      # why the source failed
        self.looked: int | None = None                  # the clock at the last search for new vessels
        self.state = os.path.join(given.days, "windows.json")
        # the first window that is not done, stored for a restart
        self.first: int | None = None
        # by ten minutes of the clock: the place of their first line in the day files
        self.marks: dict[int, Mark] = {}
        self.fresh: dict[int, Mark] = {}                # the places that are not stored yet
        # the place of the first line that is too far ahead of the clock to count yet
        self.ahead: Mark | None = None

    def __enter__(self) -> "Follow":
        return self

    def __exit__(self, kind: type[BaseException] | None, error: BaseException | None,
                 trace: TracebackType | None) -> None:
        self.close()

    def close(self) -> None:
        """Ends the remaining runs, and closes the day files and the sink."""
        for run in self.runs:
            run.stop()
        self.sink.close()
        self.written.close()
        self.files.close()
        self.room.cleanup()

    def now(self) -> int:
        """Returns the time of the clock; at least one line has set it."""
        assert self.clock.time is not None
        return self.clock.time

    # the lines

    def restart(self) -> None:
        """Reads the clock and the vessels from the earlier day files, starting at the first window that is not done.

        Then opens the windows that contain the clock.
        """
        days, first = self.files.days()[-2:], self.undone()
        if self.listener:
            self.listener.load(days)
        for day in days:
            self.marks |= self.files.marks(day)
        begin = self.known_place(first)
        for day in days:
            if day >= begin[0]:
                self.read_again(day, begin[1] if day == begin[0] else 0)
        if self.clock.time is not None:
            for start in range(self.now() if first is None else first, self.now(), self.numbers.length):
                if self.has_lines(start):               # a killed run may have been behind the clock
                    self.begin_window(start, True)
            self.open(again=True)
            if first is None and self.windows:
                self.begin_blind(min(self.windows))
            self.close_those_over()

    def begin_blind(self, start: int) -> None:
        """Begins with a window without knowing which of its rows began before it, or which rows before it are written.
        """
        self.borders.borders[start] = Border(known=True, comparable=False, blind=True)
        for mode in self.given.modes:
            self.written.lack(mode, start - self.numbers.length, self.numbers.ticks * self.numbers.tick,
                              "what an earlier run of the tool had written is not known")

    def known_place(self, first: int | None) -> Mark:
        """Returns the place from which to read the day files, and sets the clock there. Without a stored window, or
        without a mark before it, that is the start of the files."""
        before = [mark for mark in self.marks if first is not None and mark <= (first - self.numbers.more) // MARK]
        if not before:
            return "", 0
        self.clock.time = max(before) * MARK
        return self.marks[max(before)]

    def read_again(self, day: str, offset: int) -> None:
        """Reads a day's file from an offset."""
        for line in lines_of(self.files.path(day), offset):
            now = self.clock.take(line)
            if now is not None:
                self.marks.setdefault(now // MARK, (day, offset))
                self.hear(line)
                self.types.take(line, now)
                if self.listener:
                    self.listener.lines([line], now)
            offset += len(line)

    def has_lines(self, start: int) -> bool:
        """Returns whether the day files have lines near a window's time."""
        first, last = start - self.numbers.more, start + self.numbers.ticks * self.numbers.tick + self.numbers.more
        return any(first // MARK <= mark <= last // MARK for mark in self.marks)

    def undone(self) -> int | None:
        """Returns the start of the first window whose rows an earlier run has not finished; None if none is stored."""
        try:
            with open(self.state, encoding="utf-8") as source:
                stored = json.load(source)
            self.borders.load(stored)
            first = int(stored["first"])
            # the windows from there on run again, which gives the later borders again
            self.borders.borders = {start: border for start, border in self.borders.borders.items() if start == first}
            return first
        except (OSError, ValueError, KeyError, TypeError, AttributeError, IndexError):
            return None

    def tell_done(self) -> None:
        """Stores which windows are not done yet, for a restart."""
        starts = [run.window.start for run in self.runs] + list(self.windows)
        # a window that is not compared yet needs the run of the one before it
        if starts and min(starts) != self.first and min(starts) not in self.agreements.pending:
            self.first = min(starts)
            replace(self.state, json.dumps({"first": self.first, **self.borders.stored()}).encode())

    def hear(self, line: bytes) -> None:
        """Notes the vessel of a line."""
        mmsi = self.senders.of(line)
        if mmsi is not None and LEAST <= mmsi <= MOST:
            self.heard[mmsi] = self.now()

    def take(self, lines: list[bytes]) -> None:
        """Takes lines: writes them to the day files, and begins and ends windows."""
        taken: list[bytes] = []
        for line in lines:
            line = stamped(line.rstrip(b"\r\n"), int(time.time())) + b"\n" if self.given.now else line
            before = self.clock.time
            now = self.clock.take(line)
            if now is not None and now != before:
                self.open(again=before is None, place=self.ahead)
            self.write(self.clock.released(line), taken)
        self.after(taken)

    def write(self, released: list[Timed], taken: list[bytes]) -> None:
        """Writes lines to the day files."""
        for came, line in released:
            self.health.take(came, came != line)
            now = self.clock.time
            if now is None:
                continue                                # its time is still unknown
            place = self.files.place_for(now)
            self.ahead = (self.ahead or place) if self.clock.ahead else None
            if now // MARK not in self.marks:
                self.marks[now // MARK] = self.fresh[now // MARK] = place
            self.files.write(line, now)
            self.hear(line)
            self.types.take(line, now)
            taken.append(line)

    def after(self, taken: list[bytes]) -> None:
        """Runs after lines were written: ends windows, adds new vessels, and stores the position."""
        self.files.flush()
        self.files.add_marks(self.fresh)
        self.fresh = {}
        if self.listener and self.clock.time is not None:
            self.listener.lines(taken, self.clock.time)
        self.health.came()
        self.close_those_over()
        self.take_in_new(False)
        self.types.store()
        self.tell_done()

    def open(self, again: bool, place: Mark | None = None) -> None:
        """Begins the windows that are open by now; `place` is the place of the first line that was ahead of the clock
        until now."""
        for start in self.numbers.starts(self.now()):
            if start not in self.windows and start not in self.over:
                self.begin_window(start, again, place)

    def place_of(self, at: int) -> Mark:
        """Returns a place in the day files such that all lines before it are earlier than a time."""
        marks = [mark for mark in self.marks if mark <= at // MARK]
        return self.marks[max(marks)] if marks else self.files.beginning(at)

    def begin_window(self, start: int, again: bool, place: Mark | None = None) -> None:
        """Begins the runs of a window, with the lines from now or from a place; with `again`, also with earlier lines
        of the day files."""
        if again or self.files.out is None:
            place = self.place_of(start - self.numbers.gap)
        self.written.load(start)
        self.borders.take_window(start)
        window = self.windows[start] = Window(start, place or self.files.place(),
                                              self.types.lines_before(start - self.numbers.gap))
        self.agreements.begin(start)
        self.begin(window, CHECKS, None)
        if self.grouped:
            self.split(window, sorted(self.vessels(window)))
        else:
            for mode in self.modes:
                self.begin(window, mode, None)
        if self.listener:
            for run in self.runs:
                if run.mode == POINTS and run.limit is None and self.files.out:
                    run.end_at(self.files.place(), self.now(), False)       # the new window has the points from here
            self.begin(window, POINTS, None)

    def close_those_over(self) -> None:
        """Ends the runs of windows that no later line can change."""
        if self.clock.time is None:
            return
        for start, window in list(self.windows.items()):
            if self.numbers.is_over(start, self.now()):
                self.take_in_new(True)
                for run in [run for run in self.runs if run.window is window]:
                    run.end_at(self.files.place(), self.now(), False)
                self.over.add(start)
                del self.windows[start]
        oldest = min(self.windows, default=self.now()) - 2 * self.numbers.ticks * self.numbers.tick
        self.over = {start for start in self.over if start >= oldest}
        self.heard = {mmsi: at for mmsi, at in self.heard.items() if at >= oldest}
        at_work = min([run.window.start for run in self.runs] + [*self.windows, *self.ending], default=self.now())
        # the end of a window can write rows of the window before
        behind = at_work - 2 * self.numbers.length
        self.written.forget(behind)
        self.borders.forget(behind)
        self.agreements.forget(behind)
        self.marks = {mark: place for mark, place in self.marks.items() if mark >= oldest // MARK - 1}

    # the runs

    def begin(self, window: Window, mode: str, group: frozenset[int] | None) -> None:
        """Begins a run."""
        name = os.path.join(self.room.name, f"{next(NAMES)}.toml")
        with open(name, "w", encoding="utf-8") as out:
            out.write(self.scenario.with_subjects(sorted(group) if group else None))
        words = [self.program, POINTS if mode == CHECKS else mode, name, f"--start={window.start}",
                 f"--ticks={self.numbers.ticks}"]
        self.runs.add(StreamRun(words, window, mode, group, self.files))
        self.earliest = {}

    def vessels(self, window: Window) -> set[int]:
        """Returns the possible subjects of a window: the scenario's subjects, or the vessels heard since its lines
        began.
        """
        return set(self.scenario.subjects) or {
            mmsi for mmsi, at in self.heard.items() if at >= window.start - self.numbers.gap
        }

    def split(self, window: Window, vessels: list[int], modes: Collection[str] = ()) -> None:
        """Begins runs of groups of subjects instead of one run of all pairs."""
        self.grouped = True
        window.add_groups(vessels)
        size = min(self.given.group, MOST_SUBJECTS)
        for mode in modes or self.modes:
            for k in range(0, len(vessels), size):
                self.begin(window, mode, frozenset(vessels[k:k + size]))

    def take_in_new(self, all_of_them: bool) -> None:
        """Begins runs for the vessels without a group in split windows."""
        if self.clock.time is None or self.looked is not None and not all_of_them and self.now() < self.looked + NEW:
            return
        self.looked = self.now()
        for window in self.windows.values():
            if window.grouped:
                new = self.vessels(window) - window.heard
                if new:
                    self.split(window, sorted(new))

    def ended(self, run: WindowRun, words: str) -> None:
        """Handles the end of a run."""
        self.runs.discard(run)
        self.earliest = {}
        status = run.status or 0
        if run.mode == "audit" and status == 0 and run.counts:
            self.health.ended(run.window.start, run.counts)
        is_killed = status < 0 and self.restarts.get(run.key(), 0) < MOST_RESTARTS
        if run.mode == CHECKS and not is_killed:
            self.end_checks(run, words)
        elif status == 7 and "pairs" in words:
            self.split_at_limit(run)
        elif status == STATUS and limit_of(words) == "vessels" and run.mode == "audit":
            self.by_areas(run)
        elif is_killed:
            self.begin_again(run)
        elif status != 0:
            self.fault(f"a run of `{run.mode}` from {run.window.start} ended with status {status}, "
                       f"{words}{next_step(status, words)}")
            self.written.lack(run.mode, run.window.start, self.numbers.ticks * self.numbers.tick, words)
            if run.mode == "audit":
                border = self.borders.at(run.window.start + self.numbers.length)
                border.comparable, border.blind = False, True

    def end_checks(self, run: WindowRun, words: str) -> None:
        """Handles the end of a run whose reports are compared; if it failed, the window and the next one may accept
        different reports."""
        if run.status:
            for start in (run.window.start, run.window.start + self.numbers.length):
                self.borders.at(start).uncompared = words
        self.compare(self.agreements.ended(run.window.start))

    def compare(self, starts: list[int]) -> None:
        """Compares the windows that begin at these times with those before them."""
        for start in starts:
            lost = self.borders.at(start - self.numbers.length).lost
            self.borders.differ(start, self.agreements.compared(start, lost))

    def check(self, run: WindowRun, rows: list[str]) -> None:
        """Takes reports of a window for the comparison with its neighbours."""
        compared = self.agreements.take(run.window.start, rows)
        if self.agreements.is_done(run.window.start) and run.limit is None:
            run.end_at(self.files.place(), self.now(), False)
        if compared:
            self.compare(compared)
            self.hand_on()
            if not self.cut:
                self.tell_done()

    def by_areas(self, run: WindowRun) -> None:
        """Audits a window with too many vessels by areas, once its lines are over."""
        if any(isinstance(other, AreaRun) and other.window is run.window for other in self.runs):
            return
        self.say(f"the window from {run.window.start} has more than 4096 vessels; an audit by areas starts after its "
                 "end")
        new = AreaRun(run.window, self.scenario, self.numbers.ticks, self.program, self.files)
        self.runs.add(new)
        self.earliest = {}
        if run.limit and run.closed is not None:
            new.end_at(run.limit, run.closed, run.cut)

    def begin_again(self, run: WindowRun) -> None:
        """Restarts a killed run from the day files; it does not repeat the rows that the run already wrote."""
        self.restarts[run.key()] = self.restarts.get(run.key(), 0) + 1
        self.health.restarts += 1
        self.say(f"signal {-(run.status or 0)} killed a run of `{run.mode}` from {run.window.start}; it starts again "
                 "from the day files")
        before = set(self.runs)
        if run.mode == CHECKS:
            self.agreements.begin(run.window.start)
        self.begin(run.window, run.mode, run.group)
        if run.limit and run.closed is not None:
            for new in self.runs - before:
                new.end_at(run.limit, run.closed, run.cut)

    def split_at_limit(self, run: WindowRun) -> None:
        """Splits a run with too many pairs into runs of groups, and a group into two."""
        vessels = sorted(run.group or self.vessels(run.window))
        if len(vessels) < 2:
            self.fault(f"{vessels[0]} alone has more contacts than the 4096 pairs of a run: use a smaller "
                       "`detect.watch`, or a shorter --ticks-each")
            return
        before = set(self.runs)
        if run.group is None:
            self.say(f"the window from {run.window.start} has more than 4096 pairs: split by subjects")
            self.split(run.window, vessels, [run.mode])
        else:
            for half in (vessels[:len(vessels) // 2], vessels[len(vessels) // 2:]):
                self.begin(run.window, run.mode, frozenset(half))
        if run.limit and run.closed is not None:
            for new in self.runs - before:
                new.end_at(run.limit, run.closed, run.cut)

    # the rows

    def row(self, run: WindowRun, row: str) -> None:
        """Writes a row if it ends in its window's own steps and is settled."""
        numbers, start = self.numbers, run.window.start
        first, last = steps_of(row)
        fields = row.split(",", 3)
        if not run.is_mine(int(fields[1]), int(fields[2]), self.scenario.subjects):
            return
        marks = (self.borders.take if run.mode == "audit" else self.borders.of_alarm)(start, row)
        self.write_differing(start)
        if run.cut and run.closed is not None and last > numbers.settled(start, run.closed, run.mode):
            return                                      # what comes later may still change it
        if run.mode not in self.given.modes:
            return
        if last > numbers.last and first < numbers.every + numbers.warm:
            self.tell_long(run, row)
        if numbers.behind < last <= numbers.last or last > numbers.last and self.is_last(run):
            self.health.rows += self.written.write(row, run.mode, start, numbers.tick, marks)

    def tell_long(self, run: WindowRun, row: str) -> None:
        """Reports that a row is longer than the overlap, once per run."""
        if run.note_long():
            self.say(f"a row of the window from {run.window.start} is longer than the overlap, so the next window "
                     f"reports it differently; give a longer --overlap: {row}")

    def is_last(self, run: WindowRun) -> bool:
        """Returns whether a run belongs to the last window of a stream that ended for good."""
        following = run.window.start + self.numbers.length - self.numbers.gap
        return self.given.whole and run.closed is not None and following > run.closed

    def is_early(self, run: WindowRun) -> bool:
        """Returns whether a window before this run's window is not done. The rows and the points of that window come
        first: later rows must not delay them, and a listener ignores points that are older than those that it has."""
        if run.mode != POINTS and run.window.start in self.agreements.pending:
            return True
        if run.mode not in self.earliest:
            # the marks of alarms need the rows of `audit` of the window before
            modes = (run.mode, "audit") if run.mode == "watch" else (run.mode,)
            starts = [other.window.start for other in self.runs if other.mode in modes]
            starts += self.ending if run.mode != POINTS else ()
            if not starts:
                return False
            self.earliest[run.mode] = min(starts)
        return self.earliest[run.mode] < run.window.start

    def serve(self) -> None:
        """Passes on the new lines to all runs, and handles their rows and ends."""
        for run in sorted(self.runs, key=lambda run: (run.window.start, run.mode)):
            rows, words = run.work()
            self.take_rows(run, rows)
            if words is not None:
                self.ended(run, words)
                if run.mode == "audit" and not self.cut and not self.has_audit(run.window.start):
                    self.ending[run.window.start] = run
                    self.earliest = {}
                self.hand_on()
                if not self.cut:
                    self.tell_done()

    def take_rows(self, run: WindowRun, rows: list[str]) -> None:
        """Handles rows of a run, or lets them wait for earlier windows."""
        if not rows:
            return
        if run.mode == CHECKS:
            self.check(run, rows)
        elif self.is_early(run):
            self.held.append((run, rows))
        elif run.mode != POINTS:
            for row in rows:
                self.row(run, row)
        elif self.listener:
            self.listener.points(rows)

    def has_audit(self, start: int) -> bool:
        """Returns whether a run of `audit` over the window from `start` has not ended."""
        return any(run.mode == "audit" and run.window.start == start for run in self.runs)

    def hand_on(self) -> None:
        """Passes on the rows that waited for earlier windows, and ends the windows without a run, in order."""
        held: dict[int, list[tuple[WindowRun, list[str]]]] = {}
        for run, rows in self.held:
            held.setdefault(run.window.start, []).append((run, rows))
        self.held = []
        for start in sorted({*held, *self.ending}):
            for run, rows in held.get(start, []):
                self.take_rows(run, rows)
            if start in self.ending and self.is_over_for_all(self.ending[start]):
                self.end_window(self.ending.pop(start))
                self.earliest = {}

    def is_over_for_all(self, run: WindowRun) -> bool:
        """Returns whether a window, whose last run of `audit` this is, can end: nothing before it is missing, its
        alarms are written, and it is known whether the next window accepts the same reports."""
        start = run.window.start
        has_alarms = any(other.mode == "watch" and other.window.start == start for other in self.runs)
        return not (has_alarms or self.is_early(run) or start + self.numbers.length in self.agreements.pending)

    def end_window(self, run: WindowRun) -> None:
        """Ends a window whose last run has ended. Writes, with a mark, the rows of the window before that continue
        after that window but that this window lacks."""
        start, following = run.window.start, run.window.start + self.numbers.length
        self.write_over(start - self.numbers.length, self.borders.end(start))
        self.write_differing(start)
        if following in self.ending or self.has_audit(following):
            for mode in self.given.modes:
                self.write_questions(following, mode, self.borders.in_question(following, mode))
        elif not self.is_last(run):
            self.write_over(start, self.borders.end(following))         # no window follows

    def write_over(self, start: int, rows: list[tuple[str, Marks]]) -> None:
        """Writes rows of the window that begins at a time that continue after it."""
        for row, marks in rows if "audit" in self.given.modes else ():
            self.health.rows += self.written.write(row, "audit", start, self.numbers.tick, (*marks, AFTER))

    def write_differing(self, start: int) -> None:
        """Writes about which pairs the window that begins at a time turned out to differ from the one before it."""
        if self.borders.fresh:
            for mode in self.given.modes:
                self.write_questions(start, mode, [(pair, DIFFERS) for pair in sorted(self.borders.fresh)])
            self.borders.fresh.clear()

    def write_questions(self, start: int, mode: str, questions: list[tuple[tuple[int, int], str]]) -> None:
        """Writes which pairs may lack rows of a mode among the own steps of the window that begins at a time, or have
        wrong ones."""
        first, last = self.numbers.behind - self.numbers.reach, self.numbers.last
        bounds = start + first * self.numbers.tick, start + (last + 1) * self.numbers.tick
        for pair, why in questions:
            self.written.question(pair, mode, start, bounds, why)

    # the whole

    def run(self, source: Source, stop: threading.Event) -> int:
        """Follows the stream to its end, or until `stop` is set; returns the exit status."""
        arrived: queue.Queue[Lines | None] = queue.Queue(WAITING)
        self.restart()
        threading.Thread(target=self.read, args=(source, arrived), daemon=True).start()
        ended = False
        while not stop.is_set() and not ended:
            begun = time.monotonic()
            if self.has_room():
                ended = self.take_arrived(source, arrived)
            self.serve()
            self.health.look(self.clock.time, len(self.heard))
            if self.listener and self.clock.time is not None:
                self.listener.passed(self.clock.time)
            if self.has_room() and not arrived.empty():
                continue
            if any(run.is_busy for run in self.runs) or not arrived.empty():
                self.wait()
            else:
                stop.wait(max(0, begun + PAUSE - time.monotonic()))
        if self.failed:
            raise self.failed
        source.stop()
        self.finish()
        return FAILED if self.faults else DONE

    def has_room(self) -> bool:
        """Returns whether new lines can be taken. With a listener they wait while the runs are behind, so that the
        listener gets rows and points of about the same time together."""
        is_behind = self.listener is not None and any(run.behind for run in self.runs)
        return not is_behind and (len(self.runs) < MOST_RUNS * len(self.modes) or not self.crowded())

    def crowded(self) -> bool:
        """Returns whether many runs of closed windows have not ended; runs of open windows are no reason to wait."""
        return sum(run.limit is not None for run in self.runs) >= MOST_RUNS

    def take_arrived(self, source: Source, arrived: "queue.Queue[Lines | None]") -> bool:
        """Takes the lines that have arrived; returns whether the stream has ended."""
        lines: list[bytes] = []
        mark, ended = None, False
        while not ended and len(lines) < TOGETHER and not arrived.empty():
            came = arrived.get()
            if came is None:
                ended = True
            else:
                lines, mark = lines + came[0], came[1]
        if lines:
            self.take(lines)
        if mark is not None:
            source.done(mark)
        return ended

    def wait(self) -> None:
        """Waits until a run goes on, and no longer than PAUSE."""
        pipes = select.poll()
        for run in self.runs:
            for pipe, events in run.waits():
                pipes.register(pipe, events)
        pipes.poll(1000 * PAUSE)

    def read(self, source: Source, arrived: "queue.Queue[Lines | None]") -> None:
        """Passes on the lines of the source, and None at its end."""
        try:
            for came in source.lines():
                arrived.put(came)
        except (Fault, OSError) as error:
            self.failed = error
        arrived.put(None)

    def finish(self) -> None:
        """Ends all runs. If the stream continues later, writes only settled rows."""
        self.cut = not self.given.whole
        waiting, left_out = self.clock.last()
        taken: list[bytes] = []
        self.write(waiting, taken)
        if taken:
            self.after(taken)
        if left_out:
            self.say(f"ignores the last {left_out} lines: their times are ahead of the clock of most stations")
        if self.clock.time is not None:
            self.take_in_new(True)
            for run in self.runs:
                if run.limit is None:
                    run.end_at(self.files.place(), self.now(), not self.given.whole)
        while self.runs:
            self.serve()
            self.wait()
        if self.listener and self.given.whole:
            self.listener.ended()
        self.health.write(self.clock.time, len(self.heard))

    def say(self, words: str) -> None:
        """Writes one line on standard error."""
        report("follow", words)

    def fault(self, words: str) -> None:
        """Reports a failure; the tool continues to follow the stream."""
        self.faults += 1
        self.say(words)


def sights_of(scenario: Scenario) -> dict[str, Sight]:
    """Returns the sights of the scenario's formulas, with look-back in ticks; without formulas that the program
    refuses.
    """
    found = {}
    for name, text in scenario.formulas.items():
        try:
            sight = sight_of(text)
        except Fault:
            continue
        found[name] = dataclasses.replace(sight, back=scenario.steps(sight.back))
    return found


NAMES = itertools.count()
