"""The alarms that a page shows: one item from a rule's first broken step to its last, preliminary first, then settled
or withdrawn.

A settled item comes from alarms of `watch`, which no later line changes. A preliminary one comes from the same
program's answer to the window so far, as if the log ended now. If a newer answer no longer has it, the item stays in
the list, marked as withdrawn.
"""
from collections.abc import Callable, Iterator, Mapping
from dataclasses import dataclass, field
from typing import Any

from colregs.live.notes import Notes
from colregs.stream.stretches import AGAIN, BOTH, OVER, AlarmStretch, Key, Stretches

PRELIMINARY, SETTLED, WITHDRAWN = "preliminary", "settled", "withdrawn"
DAY = 86400                     # s of the clock for which an item is listed after its last step
MOST_ITEMS = 5000               # the latest items, which are listed
WITHDRAWN_FOR = 3600            # s of the clock for which a withdrawn item is listed
Span = tuple[int, int]          # the time when a stretch's first step begins, and when its last one ends
About = dict[str, Any]


@dataclass
class Item:
    """An alarm as the page shows it. Times are those of the stream's clock."""

    id: str
    key: Key
    first: int
    last: int
    settled: AlarmStretch | None = None
    expected: Span | None = None            # the span in the last answer
    expected_at: int | None = None          # the time of the first answer with it
    confirmed_at: int = 0                   # the time of the latest answer with it
    settled_at: int | None = None
    withdrawn_at: int | None = None
    over: bool = False
    about: About = field(default_factory=dict)
    looked_at: int = 0                      # the time when names, types, place and marks were noted
    sent_at: int = 0

    @property
    def state(self) -> str:
        """Returns whether the item is settled, withdrawn or preliminary."""
        return SETTLED if self.settled else WITHDRAWN if self.withdrawn_at is not None else PRELIMINARY

    @property
    def is_at_rest(self) -> bool:
        """Returns whether both vessels are at rest in the stretch."""
        return bool(self.about.get("at_rest") == BOTH)

    def touches(self, first: int, last: int) -> bool:
        """Returns whether a stretch overlaps the item or adjoins it."""
        return self.first <= last and first <= self.last

    def fit(self) -> None:
        """Sets the item's steps from the settled and the expected ones."""
        spans = [
            span for span in ((self.settled.first, self.settled.last) if self.settled else None, self.expected) if span
        ]
        if spans:
            self.first, self.last = min(first for first, _ in spans), max(last for _, last in spans)


class Alarms:
    """All items, in the order in which they came."""

    def __init__(self, stretches: Stretches, notes: Notes, about: Callable[[Key, int, int, About], About]) -> None:
        """`about` returns names, types, place and marks of a stretch; its last argument is what it returned before."""
        self.stretches, self.notes, self.about = stretches, notes, about
        self.items: dict[str, Item] = {}
        self.by_key: dict[Key, list[Item]] = {}
        self.by_number: dict[int, Item] = {}
        self.lasting: set[str] = set()          # items that can still grow or change their state
        self.changed: set[str] = set()
        self.dropped: set[str] = set()
        self.counts = {PRELIMINARY: 0, SETTLED: 0, WITHDRAWN: 0}        # items that entered each state since the start
        # sum of the delays after the first step's end, in seconds, and their number
        self.delays = {PRELIMINARY: [0, 0], SETTLED: [0, 0]}
        self.clock = 0

    # settled alarms

    def settle(self, one: AlarmStretch) -> None:
        """Handles a stretch that a new alarm belongs to."""
        for number in one.absorbed:
            self.absorb(number, one)
        item = self.by_number.get(one.number) or self.matched(one.key, one.first, one.last,
                                                              lambda item: item.settled is None)
        if item is None:
            item = self.new(one.key, one.first, one.last)
        is_new = item.settled is None
        if is_new:
            item.settled, item.settled_at, item.withdrawn_at = one, self.clock or None, None
            self.by_number[one.number] = item
            if self.clock:                      # otherwise an earlier run wrote it, and counted it
                self.count(SETTLED, self.clock - one.first - self.stretches.tick)
        item.over = False
        item.fit()
        for other in [other for other in self.by_key[item.key] if other.settled is None]:
            if other is not item and other.touches(item.first, item.last):
                self.join(item, other)
        self.grow(item, is_new)

    def absorb(self, number: int, one: AlarmStretch) -> None:
        """Handles a stretch that turned out to be a part of another one."""
        item = self.by_number.pop(number, None)
        if item and one.number not in self.by_number:
            self.by_number[one.number], item.settled = item, one
        elif item:
            self.join(self.by_number[one.number], item)

    def join(self, item: Item, other: Item) -> None:
        """Merges two items."""
        if other.expected:
            first, last = item.expected or other.expected
            item.expected = min(first, other.expected[0]), max(last, other.expected[1])
            item.expected_at = item.expected_at or other.expected_at
        self.drop(other)
        item.fit()

    def told(self, told: Mapping[str, Any]) -> None:
        """Handles a line about a stretch: its names, place and marks, and possibly that it is over."""
        key = told["subject"], told["other"], told["rule"]
        item = self.matched(key, told["first"], told["last"], lambda item: item.settled is not None)
        if item:
            item.about = {
                name: told[name]
                for name in ("subject_name", "other_name", "subject_type", "other_type", "position", "at_rest", "marks")
            }
            item.over = told["state"] == OVER
            self.touch(item)

    def restore(self, told: Mapping[str, Any]) -> None:
        """Loads a stretch that is over from its line in a file."""
        key = told["subject"], told["other"], told["rule"]
        item = self.new(key, told["first"], told["last"])
        item.settled, item.settled_at = AlarmStretch(0, key, told["first"], told["last"], 0), None
        self.told(told)

    # preliminary alarms

    def answer(self, spans: Mapping[Key, list[Span]], settled_to: int, is_whole: bool = True) -> None:
        """Handles the broken stretches of an answer. It adds no item before `settled_to`, because alarms there are
        settled. Only an answer about all pairs withdraws the items that it lacks."""
        confirmed: set[str] = set()
        for key, own in spans.items():
            for first, last in own:
                if last > settled_to or self.matched(key, first, last, lambda item: item.id in self.lasting):
                    confirmed.add(self.expect(key, first, last).id)
        for item in [self.items[name] for name in self.lasting if is_whole and name not in confirmed]:
            self.doubt(item)

    def expect(self, key: Key, first: int, last: int) -> Item:
        """Handles one broken stretch of an answer; returns its item."""
        item = self.matched(key, first, last, lambda item: item.id in self.lasting or item.state == WITHDRAWN)
        if item is None:
            item = self.new(key, first, last)
        item.confirmed_at = self.clock
        if item.expected_at is None:
            item.expected_at = self.clock
            if item.settled is None:
                self.count(PRELIMINARY, self.clock - first - self.stretches.tick)
        if item.expected != (first, last) or item.withdrawn_at is not None:
            is_new = item.expected is None or item.withdrawn_at is not None
            item.expected, item.withdrawn_at = (first, last), None
            begins = item.first
            item.fit()
            if item.settled is None and (item.first != begins or self.clock >= item.looked_at + AGAIN):
                self.look(item)
            self.grow(item, is_new)
        return item

    def look(self, item: Item) -> None:
        """Notes names, types, place and marks of an item."""
        item.about, item.looked_at = self.about(item.key, item.first, item.last, item.about), self.clock

    def doubt(self, item: Item) -> None:
        """Handles an item that the last answer lacks: withdraws it, or cuts it back to its settled steps."""
        if item.settled is None:
            item.withdrawn_at, item.expected = self.clock, None
            self.count(WITHDRAWN, None)
            self.touch(item)
        elif item.expected and item.expected[1] > item.settled.last:
            item.expected = None
            item.fit()
            self.touch(item)

    # all items

    def new(self, key: Key, first: int, last: int) -> Item:
        """Returns a new item."""
        name, more = "-".join(map(str, (*key, first))), 0
        while name in self.items:
            more += 1
            name = "-".join(map(str, (*key, first, more)))
        item = Item(name, key, first, last)
        self.look(item)
        self.items[name] = item
        self.by_key.setdefault(key, []).append(item)
        return item

    def matched(self, key: Key, first: int, last: int, fits: Callable[[Item], bool]) -> Item | None:
        """Returns the latest item of a pair and rule that touches a stretch and fits."""
        return next((item for item in reversed(self.by_key.get(key, [])) if item.touches(first, last) and fits(item)),
                    None)

    def grow(self, item: Item, is_new: bool) -> None:
        """Notes that an item has another step. Items of two vessels at rest are many and hidden, so their growth is
        sent once a minute."""
        self.lasting.add(item.id)
        if is_new or not item.is_at_rest or self.clock >= item.sent_at + AGAIN:
            self.touch(item)

    def touch(self, item: Item) -> None:
        """Notes that an item changed."""
        self.changed.add(item.id)
        item.sent_at = self.clock
        if item.over or item.state == WITHDRAWN:
            self.lasting.discard(item.id)
        else:
            self.lasting.add(item.id)

    def drop(self, item: Item) -> None:
        """Removes an item from the list."""
        del self.items[item.id]
        self.by_key[item.key].remove(item)
        if not self.by_key[item.key]:
            del self.by_key[item.key]
        if item.settled and self.by_number.get(item.settled.number) is item:
            del self.by_number[item.settled.number]
        self.lasting.discard(item.id)
        self.changed.discard(item.id)
        self.dropped.add(item.id)

    def count(self, state: str, delay: int | None) -> None:
        """Counts an item that entered a state, and its delay after the item's first step."""
        self.counts[state] += 1
        if delay is not None:
            self.delays[state][0] += delay
            self.delays[state][1] += 1

    def pass_time(self, clock: int) -> None:
        """Ends the items that can no longer grow, withdraws those that can no longer settle, and removes old ones."""
        self.clock = clock
        for item in [self.items[name] for name in self.lasting]:
            if item.settled and not self.stretches.is_open(item.settled):
                item.over, item.expected = True, None
                item.fit()
                self.touch(item)
            elif item.settled is None and clock > max(item.last, item.confirmed_at) + self.stretches.wait:
                self.doubt(item)
            elif item.settled is None and not item.about.get("position"):
                self.look(item)                         # the answer came before the points
                if item.about.get("position"):
                    self.touch(item)
        for item in list(self.old(clock)):
            self.drop(item)

    def old(self, clock: int) -> Iterator[Item]:
        """Yields the items that are too old or too many."""
        many = len(self.items) - MOST_ITEMS
        for number, item in enumerate(self.items.values()):
            if number < many or clock > item.last + (WITHDRAWN_FOR if item.state == WITHDRAWN else DAY):
                yield item

    def note(self, item: Item) -> dict[str, Any] | None:
        """Returns the acknowledgement of an item in the page's form, or None."""
        note = self.notes.of(item.key, item.first, item.last)
        return {"acknowledged": note.acknowledged, "note": note.note, "at": note.at} if note else None

    def values(self, item: Item) -> dict[str, Any]:
        """Returns an item in the form of the page and the API."""
        subject, other, rule = item.key
        return {
            "id": item.id, "state": item.state, "subject": subject, "other": other, "rule": rule, "first": item.first,
            "last": item.last, "settled_to": item.settled.last if item.settled else None, "lasting": item.id
            in self.lasting, "expected_at": item.expected_at, "settled_at": item.settled_at,
            "withdrawn_at": item.withdrawn_at, **item.about, "note": self.note(item)
        }
