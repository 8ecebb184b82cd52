"""Joins overlapping windows row by row: each row once, with a mark if no window has it from before its meeting to after
its end.

The laws of shares by time (docs/TRAFFIC_SERVICE.md) say which rows of a window are those of the whole audit. If two
vessels are engaged at a step of a window, they are engaged at that step in the whole. So window and whole agree from
the first step at which the pair is not engaged in the whole, or at which a meeting of the pair has ended in the window.
This module calls that step the pair's `sync`. A window supplies the rows after the last settled step of the window
before.
"""
from dataclasses import dataclass, field

from colregs.errors import Fault
from colregs.model.formulas import YES, Sight, sight_of
from colregs.model.scenario import Scenario
from colregs.shares.heads import STRADDLE, agreed_from
from colregs.shares.partings import parted
from colregs.shares.results import Check, Pair, Rows, Stretch, in_order

CUT, DOUBT = "cut", "doubt"
ALWAYS = -1                                             # the sync of a pair that agrees from a window's start
OF_A_RULE = Sight(0, 0, frozenset((YES,)), True)        # a rule of the program looks back only within its meeting
LONG = "its meeting began before the window that reports it, and no window has the whole meeting"
LATE = "its formula looks back to a time before the window knows its meeting or the two vessels"
LEAST = "two windows accept different reports of one of the two at a step that may be that of their least distance"
OTHER = "the window and the one before accept different reports of hers; two vessels may share the MMSI"


@dataclass(order=True)
class Doubt:
    """A reason why rows are marked or may be missing: rows of a vessel, of a pair, or of all vessels (0), between two
    times in seconds since the Unix epoch."""

    first: int
    last: int
    subject: int
    other: int
    mark: str
    reason: str


@dataclass
class Window:
    """A window: its start in seconds, its steps counted from the first window's start, and its rows by pairs.

    `settled` is the last step whose rows neither the window's end nor a later line can change. `head` is the last
    second of the reports that the join compares with the window before, and `tail` the first of those that it compares
    with the window after. `syncs` has the vessels that do not agree from the start; None means never. Of the vessels
    `others` it accepts other reports about its start than the window before, and of `others_late` about that one's end.
    """

    start: int
    first: int
    end: int
    settled: int
    head: int
    tail: int
    rows: Rows
    syncs: dict[int, int | None] = field(default_factory=dict)
    others: set[int] = field(default_factory=set)
    others_late: set[int] = field(default_factory=set)
    fresh: set[int] = field(default_factory=set)
    pair_syncs: dict[Pair, int | None] = field(default_factory=dict)
    of_pair: dict[Pair, list[Stretch]] = field(default_factory=dict)

    def __post_init__(self) -> None:
        for row in self.rows.stretches:
            self.of_pair.setdefault(row.kind.pair, []).append(row)
        for pair, rows in self.of_pair.items():
            moored = self.rows.still.issuperset(pair)
            for row in rows:
                row.moored = moored
        self.rows.stretches = []                        # `of_pair` has them

    def known_from(self, pair: Pair) -> int | None:
        """Returns the step from which the window certainly agrees with the whole about a pair."""
        if pair in self.pair_syncs:
            return self.pair_syncs[pair]
        steps = [self.syncs.get(mmsi, ALWAYS) for mmsi in pair]
        return None if None in steps else max(step for step in steps if step is not None)


class Joining:
    """Takes windows in the order of their starts, and returns the joined rows that no later window can change."""

    def __init__(self, scenario: Scenario, rules: list[str]) -> None:
        self.scenario, self.rules = scenario, rules
        self.sights = {name: sight_of(text) for name, text in scenario.formulas.items()}
        self.warm = scenario.steps(max(scenario.gap, STRADDLE)) + 1
        self.before: Window | None = None
        self.doubts: list[Doubt] = []
        # rows that continue after the settled step of the window before
        self.pending: dict[Pair, list[Stretch]] = {}
        self.held: list[Stretch] = []
        self.doubtful: set[Pair] = set()
        self.unknown: set[Pair] = set()         # about these the window before nowhere agrees with the whole

    def take(self, window: Window) -> list[Stretch]:
        """Takes the next window; returns the rows of those before it, in order."""
        before = self.before
        if before is not None and window.settled <= before.settled:
            return []
        if before is not None:
            self.tie(before, window)
        found: list[Stretch] = []
        for pair in sorted({*window.of_pair, *self.pending, *self.unknown}):
            found += self.settle(
                window,
                self.rows_from_first(window, pair) if before is None else self.rows_from_next(before, window, pair))
        self.unknown = {pair for pair, sync in window.pair_syncs.items() if sync is None}
        given, self.held, self.before = in_order(self.held, self.rules), found, window
        return given

    def finish(self) -> list[Stretch]:
        """Returns the rows that are left."""
        given, self.held = in_order(self.held, self.rules), []
        return given

    def tie(self, before: Window, window: Window) -> None:
        """Finds the step from which each vessel of a window agrees with the window before."""
        tick, gap = self.scenario.tick, self.scenario.gap
        base = window.first + self.warm
        if base > before.settled:
            raise Fault(f"the windows from {before.start} and {window.start} overlap too little: plan an overlap "
                        f"longer by {(base - before.settled) * tick} s")
        last = before.start + (before.end - before.first) * tick + gap      # of the lines of the window before
        begin, end = window.start - gap, min(window.head, last)
        lost = {mmsi for mmsi, sync in before.syncs.items() if sync is None}
        for mmsi in set(before.rows.checks) | set(window.rows.checks) | lost:
            found = [part.rows.checks.get(mmsi, []) for part in (before, window)]
            checks = [within(part, begin, end) for part in found]
            if checks[0] != checks[1]:
                window.others.add(mmsi)
            if within(found[0], before.tail, last) != within(found[1], before.tail, last):
                window.others_late.add(mmsi)
            at = agreed_from(checks[0], checks[1], begin, end, gap, mmsi in lost)
            step = None if at is None else window.first + -(-(at - window.start) // tick)
            if step is None or step > base:
                window.syncs[mmsi] = step
            elif mmsi in lost:
                window.fresh.add(mmsi)
        window.syncs |= {mmsi: None for mmsi in window.rows.unsure}
        for mmsi in sorted(mmsi for mmsi, sync in window.syncs.items() if sync is None):
            self.doubt(window, window.first, window.end, (mmsi, 0), DOUBT, OTHER)
        for name, sight in self.sights.items():
            if sight.values != {YES}:
                self.doubt(window, window.first, window.end, (0, 0), DOUBT,
                           f"the formula {name} is not about meetings alone, and the window may lack its rows")

    def doubt(self, window: Window, first: int, end: int, who: Pair, mark: str, reason: str) -> None:
        """Notes a doubt about the steps from `first` up to before `end`."""
        begin = window.start - window.first * self.scenario.tick
        self.doubts.append(
            Doubt(begin + first * self.scenario.tick, begin + end * self.scenario.tick, *who, mark, reason))

    # the rows of a pair

    def back(self, row: Stretch) -> int:
        """Returns the number of steps that a row's formula looks back."""
        return self.scenario.steps(self.sight(row).back)

    def sight(self, row: Stretch) -> Sight:
        return OF_A_RULE if row.is_meeting else self.sights.get(row.kind.rule, OF_A_RULE)

    def settle(self, window: Window, rows: list[Stretch]) -> list[Stretch]:
        """Returns the rows of a pair that end by the settled step, and stores those that continue after it as pending.
        Rows that begin later belong to the next window."""
        going = [row for row in rows if row.first <= window.settled < row.last]
        if going:
            self.pending[going[0].pair] = going
        return [row for row in rows if row.last <= window.settled]

    def rows_from_first(self, window: Window, pair: Pair) -> list[Stretch]:
        """Returns the rows of a pair in the first window, which starts with the whole."""
        window.pair_syncs[pair] = ALWAYS
        return window.of_pair[pair]

    def rows_from_next(self, before: Window, window: Window, pair: Pair) -> list[Stretch]:
        """Returns the rows of a pair that end after the settled step of the window before."""
        sync = window.pair_syncs[pair] = self.sync(before, window, pair)
        border, rows, pending = before.settled, window.of_pair.get(pair, []), self.pending.pop(pair, [])
        if self.contradict(before, window, pair, pending):
            sync = window.pair_syncs[pair] = None
        if sync is None and self.is_doubtful(window, pair):
            return [self.mark(row, DOUBT) for row in [*pending, *(row for row in rows if row.first > border)]]
        if (sync is None or sync > border + 1) and (pending or rows or pair in self.unknown):
            self.doubt(window, border + 1, window.end if sync is None else sync, pair, CUT, LONG)
        self.doubt_back(window, pair, rows, border)
        crossing = {row.track: row for row in rows if row.first <= border + 1 <= row.last}
        made = [self.over_border(window, old, crossing.pop(old.track, None), border) for old in pending]
        rest = [*crossing.values(), *(row for row in rows if row.first > border + 1)]
        return made + [self.judged(window, row) for row in rest]

    def doubt_back(self, window: Window, pair: Pair, rows: list[Stretch], border: int) -> None:
        """Doubts the steps of a window from which a formula looks back to before the window's `sync` or, if that can
        change its value, to before the pair's first row there: rows of it may be missing."""
        sync, first = window.pair_syncs[pair], min((row.first for row in rows), default=None)
        if sync is None or first is None:
            return
        for sight in self.sights.values():
            back = self.scenario.steps(sight.back)
            last = sync + back if sight.no_edge else max(sync, first) + back
            if sight.values == {YES} and back and last > border:
                self.doubt(window, border + 1, last + 1, pair, CUT, LATE)

    def is_doubtful(self, window: Window, pair: Pair) -> bool:
        return pair in self.doubtful or any(window.syncs.get(mmsi, ALWAYS) is None for mmsi in pair)

    def sync(self, before: Window, window: Window, pair: Pair) -> int | None:
        """Returns the step from which a window agrees with the whole about a pair; None if it does not within its
        settled steps."""
        if self.is_doubtful(window, pair):
            return None
        if window.fresh.intersection(pair) and all(window.syncs.get(mmsi, ALWAYS) == ALWAYS for mmsi in pair):
            # a vessel is not seen at this step, so the two are not engaged
            return window.first
        low = max(window.first + self.warm, *(window.syncs.get(mmsi, ALWAYS) or 0 for mmsi in pair))
        known = before.known_from(pair)
        if known is not None:
            step = max(low, known)
            for row in before.of_pair.get(pair, []):
                if row.is_meeting and row.first <= step <= row.last:
                    step = row.last + 1
            if step <= before.settled:
                return step
        ends = [row.last + 1 for row in window.of_pair.get(pair, []) if row.is_meeting and low <= row.last]
        at = self.parted(window, pair, low)
        if at is not None:
            ends.append(at)
        return min((end for end in ends if end <= window.settled), default=None)

    def parted(self, window: Window, pair: Pair, low: int) -> int | None:
        """Returns the first step from `low` on at which the reports about a window's beginning show that two vessels
        are not engaged; None if they do not show it."""
        tick, checks = self.scenario.tick, window.rows.checks
        base = window.start - window.first * tick
        found = parted(checks.get(pair[0], []), checks.get(pair[1], []),
                       (base + low * tick, window.head - self.scenario.gap), self.scenario)
        return None if found is None else (found - base) // tick

    def mark(self, row: Stretch, mark: str) -> Stretch:
        row.mark = row.mark or mark
        return row

    def judged(self, window: Window, row: Stretch) -> Stretch:
        """Marks a row of a window unless the window certainly agrees with the whole about it."""
        sync = window.pair_syncs[row.pair]
        if sync is None or row.first <= sync:
            return self.mark(row, CUT)
        if self.sight(row).values != {YES}:
            return self.mark(row, DOUBT)
        if not self.sees_back(window, row, row.first):
            self.doubt(window, row.first, row.last + 1, row.pair, CUT, LATE)
            return self.mark(row, CUT)
        return row

    def sees_back(self, window: Window, row: Stretch, step: int) -> bool:
        """Returns whether a window knows all that a row's formula looks back to at a step: what is later than its
        `sync`, and, of some formulas, what is later than its first row of the pair."""
        sync, sight, back = window.pair_syncs[row.pair], self.sight(row), self.back(row)
        rows = window.of_pair.get(row.pair, [])
        known = sight.no_edge or bool(rows) and step > min(known.first for known in rows) + back
        return sync is not None and step > sync + back and known

    def over_border(self, window: Window, old: Stretch, new: Stretch | None, border: int) -> Stretch:
        """Returns the joined row of a stretch that continues over the settled step of the window before; `new` is this
        window's part of it.

        If both windows have a meeting at that step, it is the same meeting, whenever it began, with the same end.
        """
        known = self.sight(old).values == {YES} and self.sees_back(window, old, border + 1)
        if new is None:
            return old.spanning(old.first, border) if known and not old.is_meeting else self.mark(old, CUT)
        row = old.spanning(old.first, new.last)
        row.moored = old.moored and new.moored
        if not row.is_meeting:
            return row if known else self.mark(row, CUT)
        row.least = str(min(int(old.least), int(new.least)))
        if self.has_least(window, old, new):
            row.least = new.least
        elif not self.had_least(window, old, new):
            self.doubt(window, row.first, row.last + 1, row.pair, DOUBT, LEAST)
            self.mark(row, DOUBT)
        return row

    def has_least(self, window: Window, old: Stretch, new: Stretch) -> bool:
        """Returns whether the least distance of a meeting over a border is certainly that of a window's part: it sees
        rightly all its steps, and has all steps of the meeting or is as near as the window before was."""
        return self.agrees_within(window, new) and (new.first <= old.first or int(new.least) <= int(old.least))

    def had_least(self, window: Window, old: Stretch, new: Stretch) -> bool:
        """Returns whether the least distance of a meeting over a border is certainly the lesser one of both parts: the
        window before sees rightly also its steps that were not settled, and this window all, or is not nearer."""
        return window.others_late.isdisjoint(old.pair) and (self.agrees_within(window, new)
                                                            or int(old.least) <= int(new.least))

    def agrees_within(self, window: Window, row: Stretch) -> bool:
        """Returns whether a window sees both vessels as the whole does at each step of a row."""
        if window.others.isdisjoint(row.pair):
            return True
        steps = [window.syncs.get(mmsi, window.first + self.warm) for mmsi in row.pair]
        return all(step is not None and row.first >= step for step in steps)

    def contradict(self, before: Window, window: Window, pair: Pair, pending: list[Stretch]) -> bool:
        """Returns whether two windows that should agree about a pair have different rows; if so, notes a doubt."""
        sync, known = window.pair_syncs[pair], before.known_from(pair)
        if sync is None or known is None:
            return False
        begin = max(sync, known)
        found = [{
            self.common(row, before.settled)
            for row in part.of_pair.get(pair, [])
            if self.is_common(row, begin, before.settled)
        }
                 for part in (before, window)]
        other = sorted(found[0] ^ found[1])
        if not other:
            return False
        self.doubtful.add(pair)
        self.doubt(window, window.first, window.end, pair, DOUBT,
                   f"the windows from {before.start} and {window.start} differ in a row: {' '.join(other[0])}")
        for row in [*self.held, *pending]:
            if row.pair == pair and row.last >= window.first:
                self.mark(row, DOUBT)
        return True

    def is_common(self, row: Stretch, sync: int, border: int) -> bool:
        """Returns whether two windows have to report the beginning of a row alike."""
        if not sync < row.first <= border:
            return False
        sight = self.sight(row)
        return sight.values == {YES} and sight.no_edge and sync + self.back(row) < row.first

    def common(self, row: Stretch, border: int) -> tuple[str, ...]:
        """Returns what of a row two windows have to report alike: all of it, or its beginning if it goes on over the
        settled step."""
        end = (str(row.last), row.least) if row.last <= border else ("..",)
        return (*row.track, str(row.first), *end)


def within(checks: list[Check], first: int, last: int) -> list[Check]:
    """Returns the reports between two times."""
    return [check for check in checks if first <= check[0] <= last]
