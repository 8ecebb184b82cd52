"""Marks the rows of a stream that one run over the whole stream may not have.

The window whose own steps contain the end of a row writes the row. No window has the whole of a meeting that outlasts
the overlap: the next window reports a different start, or no meeting at all. So this module compares each window with
the one before at the steps that are settled in both; `border` below is the earlier window's last own step. colregs-many
marks joined rows by the same law (colregs/shares/windows.py); here rows arrive one by one, in the order of their last
steps.
"""
from collections.abc import Callable, Mapping
from dataclasses import dataclass, field
from typing import Any

from colregs.model.earth import iso
from colregs.model.formulas import YES, Sight
from colregs.shares.results import Pair, Stretch, stretch_of

BEFORE, AFTER, DOUBT = "begins_before", "ends_after", "doubt"
DIFFERS = "two windows differ about the two, as if two vessels had one MMSI"
OTHER = "two windows accept different reports of hers; two vessels may share the MMSI"
EARLIER = "their meeting began before the window"
DAY = 86400                                     # s for which the rows of a pair stay doubtful
Marks = tuple[str, ...]
Track = tuple[Any, ...]                         # a pair, and its meetings or a rule's value


@dataclass
class Border:
    """The comparison of a window with the one before it, in steps of the window itself.

    `known` says that the window before is done, and `comparable` that its rows in the overlap are here. Pairs of `open`
    have a meeting that began before the window agrees with the whole, and until their step in `syncs` their rows are
    not those of one run. If `blind`, it is not known which pairs these are, and neither is it of the vessels `before`.
    Of the vessels `others` the two windows accept different reports, and of those `lost` to the end. `until` has the
    last steps of meetings that began as early and ended in time. `over` has the rows of the window before that continue
    after the border, and `met` those that this window has too. `earlier` and `own` are the rows of either in the
    overlap.
    """

    known: bool = False
    comparable: bool = True
    blind: bool = False
    uncompared: str = ""                        # why nobody knows whether the two windows accept the same reports
    before: set[int] = field(default_factory=set)
    others: set[int] = field(default_factory=set)
    lost: set[int] = field(default_factory=set)
    open: set[Pair] = field(default_factory=set)
    unsure: set[Pair] = field(default_factory=set)
    syncs: dict[Pair, int] = field(default_factory=dict)
    until: dict[Pair, int] = field(default_factory=dict)
    over: dict[Track, tuple[str, Marks]] = field(default_factory=dict)
    met: set[Track] = field(default_factory=set)
    earlier: dict[Pair, list[Stretch]] = field(default_factory=dict)
    own: dict[Pair, list[Stretch]] = field(default_factory=dict)
    compared: set[Pair] = field(default_factory=set)

    def stored(self) -> dict[str, Any]:
        """Returns what a restart needs, as JSON can hold it."""
        return {
            "known": self.known, "blind": self.blind, "open": sorted(self.open), "over": list(self.over.values()),
            "until": [[*pair, step] for pair, step in self.until.items()], "before": sorted(self.before),
            "others": sorted(self.others), "lost": sorted(self.lost), "uncompared": self.uncompared,
            "comparable": self.comparable,
            "earlier": [row.words() for rows in self.earlier.values() for row in rows]
        }

    @staticmethod
    def load(told: Mapping[str, Any]) -> "Border":
        """Loads the state that an earlier run stored."""
        over = [(str(text), tuple(map(str, marks))) for text, marks in told["over"]]
        before, others, lost = (set(map(int, told.get(name, []))) for name in ("before", "others", "lost"))
        found = Border(bool(told["known"]), bool(told.get("comparable")), bool(told.get("blind")),
                       str(told.get("uncompared", "")), before, others, lost,
                       {(int(one), int(two)) for one, two in told["open"]},
                       until={(int(one), int(two)): int(step)
                              for one, two, step in told.get("until", [])},
                       over={track_of(stretch_of(text, {})): (text, marks)
                             for text, marks in over})
        for text in told.get("earlier", []):
            row = stretch_of(str(text), {})
            found.earlier.setdefault(row.pair, []).append(row)
        return found


def track_of(row: Stretch) -> Track:
    """Returns the track of a row: the meetings of its pair, or its pair with a rule and its value."""
    return *row.pair, *row.track


@dataclass
class Borders:
    """Takes the rows of meetings and verdicts window by window.

    `last` is the last step of a window that is its own, `base` the step at which the next window has begun to agree
    with it, `every` the ticks from one window to the next, and `length` the same in seconds. `reach` is how many steps
    the rules look ahead.
    """

    last: int
    base: int
    every: int
    length: int
    sights: Mapping[str, Sight]                 # of the scenario's formulas, looking back by ticks
    say: Callable[[str], None]
    reach: int = 0
    borders: dict[int, Border] = field(default_factory=dict)            # by the later window's start
    doubtful: dict[Pair, int] = field(default_factory=dict)             # with the start of the window that differed
    fresh: set[Pair] = field(default_factory=set)                       # of these, who became so just now
    begin: int | None = None                                            # the start of the first window of all

    def at(self, start: int) -> Border:
        """Returns the border of the window that begins at a time with the one before it."""
        return self.borders.setdefault(start, Border())

    def take(self, start: int, text: str) -> Marks:
        """Takes a row of the window that begins at a time; returns its marks."""
        row, border, following = stretch_of(text, {}), self.at(start), self.at(start + self.length)
        self.compare_early(start, border, row)
        marks = self.marks(border, row)
        if row.is_meeting and (row.first <= self.base or BEFORE in marks or not border.others.isdisjoint(row.pair)):
            if row.last > self.last:
                following.open.add(row.pair)
            else:
                following.until[row.pair] = row.last - self.every
        if row.first <= self.last < row.last:
            following.over[track_of(row)] = text, marks
        if row.last > self.base:
            following.earlier.setdefault(row.pair, []).append(row.moved(-self.every))
        return marks

    def marks(self, border: Border, row: Stretch) -> Marks:
        """Returns the marks of a row."""
        before = self.begins_before(border, row)
        doubt = border.known and (row.pair in self.doubtful or not self.is_of_meetings(row)
                                  or not border.others.isdisjoint(row.pair))
        return (BEFORE,) * before + (DOUBT,) * doubt

    def begins_before(self, border: Border, row: Stretch) -> bool:
        """Returns whether a row's meeting began before its window, or the window before has another beginning of it."""
        was_open, sync = is_open(border, row.pair), border.syncs.get(row.pair)
        if row.is_meeting and was_open and sync is None and row.last <= self.last:
            border.syncs[row.pair] = row.last + 1
        before = was_open and (sync is None or row.first <= sync)
        if border.known and row.first <= self.last - self.every < row.last:
            border.met.add(track_of(row))
            old = border.over.get(track_of(row))
            before = before or old is None or stretch_of(old[0], {}).first - self.every != row.first
        return before

    def is_of_meetings(self, row: Stretch) -> bool:
        """Returns whether a row's rule or formula speaks of what both windows see alike."""
        sight = None if row.is_meeting else self.sights.get(row.kind.rule)
        return sight is None or is_plain(sight)

    # alarms

    def of_alarm(self, start: int, text: str) -> Marks:
        """Returns the marks of an alarm of the window that begins at a time. It is that of one run if its step comes
        after all that the window may see otherwise of the pair: its first steps, and a meeting that began in them."""
        _, subject, other, rule, step, _ = text.split(",", 5)
        border, pair, sight = self.at(start), (int(subject), int(other)), self.sights.get(rule)
        if self.begin is None or start <= self.begin and not border.blind:
            return ()                                   # no window was before it
        sync = border.syncs.get(pair)
        if sync is None and not is_open(border, pair):
            sync = max(self.base - self.every, border.until.get(pair, -1) + 1)
        before = sync is None or int(step) <= sync + (sight.back if sight else 0)
        doubt = (pair in self.doubtful or sight is not None and not is_plain(sight)
                 or not border.others.isdisjoint(pair))
        return (BEFORE,) * before + (DOUBT,) * doubt

    def in_question(self, start: int, mode: str) -> list[tuple[Pair, str]]:
        """Returns the pairs whose rows or alarms the window that begins at a time may lack, and why; (0, 0) stands for
        all, and a vessel and 0 for all pairs of hers. Marks of rows show where a known meeting is cut."""
        border = self.at(start)
        found = [((0, 0), f"the formula {name} is not of meetings alone")
                 for name, sight in self.sights.items()
                 if not is_plain(sight)]
        found += [((0, 0), f"its reports are not compared with those of the window before: {why}")
                  for why in [border.uncompared] if why]
        found += [((mmsi, 0), OTHER) for mmsi in sorted(border.others)]
        if border.blind:
            return [*found, ((0, 0), "it is not known which meetings began before the window")]
        found += [((mmsi, 0), "it is not known which meetings of hers began before the window")
                  for mmsi in sorted(border.before)]
        if mode == "watch":
            # the window before decides steps up to the border, and this one those of a meeting that it may see
            # otherwise
            late = {pair for pair, step in border.until.items() if step > self.last - self.every - self.reach}
            found += [(pair, EARLIER) for pair in sorted(border.open | late)]
        return found + [(pair, DIFFERS) for pair in sorted(self.doubtful)]

    def differ(self, start: int, others: Mapping[int, int | None]) -> None:
        """Takes the vessels whose accepted reports are others than in the window before, and until when. What the next
        window sees of them may have begun before that one."""
        border = self.at(start)
        border.others, border.lost = set(others), {mmsi for mmsi, at in others.items() if at is None}
        fresh = sorted(border.others - border.before)
        if fresh:
            more = f" and {len(fresh) - 3} more" if len(fresh) > 3 else ""
            self.say(f"the windows from {iso(start - self.length)} and {iso(start)} accept different reports of "
                     f"{', '.join(map(str, fresh[:3]))}{more}; two vessels may share an MMSI. Their rows get the mark "
                     f"`{DOUBT}`")
        self.at(start + self.length).before = set(others)

    # rows that two windows share

    def compare_early(self, start: int, border: Border, row: Stretch) -> None:
        """Takes a row in the overlap with the window before. The first row of a pair after the overlap triggers the
        comparison."""
        if row.last <= self.last - self.every:
            border.own.setdefault(row.pair, []).append(row)
        else:
            self.compare(start, border, row.pair)

    def compare(self, start: int, border: Border, pair: Pair) -> None:
        """Compares the rows of two windows about a pair in their overlap; if they differ, the pair becomes doubtful."""
        if pair in border.compared:
            return
        border.compared.add(pair)
        earlier, own = border.earlier.pop(pair, []), border.own.pop(pair, [])
        if (not border.known or not border.comparable or is_open(border, pair) or pair in border.unsure
                or not border.others.isdisjoint(pair)):
            return
        sync = self.base - self.every
        for row in earlier:
            if row.is_meeting and row.first <= sync <= row.last:
                sync = row.last + 1
        found = [{common(row) for row in rows if self.is_common(row, sync)} for rows in (earlier, own)]
        if found[0] != found[1]:
            if self.doubtful.get(pair) != start - self.length:
                self.say(f"the windows from {iso(start - self.length)} and {iso(start)} differ about {pair[0]} and "
                         f"{pair[1]}; two vessels may share an MMSI. Their rows get the mark `{DOUBT}` for a day")
            self.doubtful[pair] = start
            self.fresh.add(pair)

    def is_common(self, row: Stretch, sync: int) -> bool:
        """Returns whether two windows that agree from a step on report a row alike."""
        sight = None if row.is_meeting else self.sights.get(row.kind.rule)
        return row.last <= self.last - self.every and self.is_of_meetings(
            row) and row.first > sync + (sight.back if sight else 0)

    # the ends of windows

    def end(self, start: int) -> list[tuple[str, Marks]]:
        """Ends a window; returns the rows of the window before that continue after the border but that this window
        lacks. A pair stays open if none of its meetings ended."""
        border, following = self.at(start), self.at(start + self.length)
        for pair in sorted({*border.earlier, *border.own}):
            self.compare(start, border, pair)
        following.known, following.unsure = True, border.open
        following.open |= {pair for pair in border.open if pair not in border.syncs}
        del self.borders[start]
        return [row for track, row in border.over.items() if track not in border.met]

    def forget(self, before: int) -> None:
        """Forgets the windows that began before a time, and doubts that are a day older."""
        self.borders = {start: border for start, border in self.borders.items() if start >= before}
        self.doubtful = {pair: start for pair, start in self.doubtful.items() if start >= before - DAY}

    def stored(self) -> dict[str, Any]:
        """Returns the state that a restart needs, as values for JSON."""
        return {
            "borders": {str(start): border.stored()
                        for start, border in self.borders.items()},
            "doubtful": [[*pair, start] for pair, start in self.doubtful.items()], "begin": self.begin
        }

    def load(self, told: Mapping[str, Any]) -> None:
        """Loads the state that an earlier run stored, for all borders."""
        self.borders = {int(start): Border.load(border) for start, border in told.get("borders", {}).items()}
        self.doubtful = {(int(one), int(two)): int(start) for one, two, start in told.get("doubtful", [])}
        # if the first window of all is not known, each one has another before it
        self.begin = -1 if told.get("begin") is None else int(told["begin"])

    def take_window(self, start: int) -> None:
        """Takes the start of a window that begins; the first of all begins with the stream."""
        self.begin = start if self.begin is None else min(self.begin, start)


def is_open(border: Border, pair: Pair) -> bool:
    """Returns whether a meeting of a pair may have begun before its window."""
    return border.blind or pair in border.open or not border.before.isdisjoint(pair)


def is_plain(sight: Sight) -> bool:
    """Returns whether a formula speaks of what both windows see alike."""
    return sight.values == {YES} and sight.no_edge


def common(row: Stretch) -> tuple[str, ...]:
    """Returns what of a row two windows have to report alike."""
    return (*row.track, str(row.first), str(row.last), row.least)
