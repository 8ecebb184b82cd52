"""Ship types that were reported before a window begins. If ranks count, types decide who gives way, and a window alone
may lack them.

This module reads them like the program: from sentences that are neither outside nor late, with parts joined by
identifier and channel. It carries only types with a rank of their own; any other type counts as no type
(docs/AUDIT.md).
"""
import bisect
import re
from collections.abc import Iterable
from dataclasses import dataclass, field

from colregs.io.lines import JOINED_WITHIN, Bits, Joiner, Message, bits_of, sender_of, sentence_of, stamp_of

RANKED = (30, 36)                   # fishing and sailing: the ship types that count
HOUR = 3600                         # s
LEAST, MOST = 200000000, 799999999  # MMSIs of ships
CANDIDATE = re.compile(rb"![A-Z0-9]{2}VD[MO],(?:[2-9],|1,1,\d?,[A-Za-z0-9]?,[5CH])")
HEAD = re.compile(rb"![A-Z0-9]{2}VD[MO],\d,1,\d?,[A-Za-z0-9]?,(.{7})", re.S)
# the least bits of the message, and the first of the eight bits of the type
SHIP_TYPE = {5: (422, 232), 19: (312, 263), 24: (162, 40)}


def ship_type(bits: Bits) -> tuple[int, int] | None:
    """Returns the vessel and the ship type in a message; None if it has none."""
    if bits.width < 38:
        return None
    kind, mmsi = bits.number(0, 6), bits.number(8, 30)
    if kind not in SHIP_TYPE or not LEAST <= mmsi <= MOST:
        return None
    needed, first = SHIP_TYPE[kind]
    if bits.width < needed or kind == 24 and bits.number(38, 2) != 1:
        return None
    return mmsi, bits.number(first, 8)


@dataclass
class Stretch:
    """Successive messages of one vessel, in the order of lines, that give her the same rank: that rank's type, and the
    times of the messages."""

    kind: int
    earliest: int       # the least time of any part of a message
    latest: int


@dataclass
class Before:
    """The knowledge before a window: ship types, and the vessels whose type the window may read differently from the
    whole log."""

    types: dict[int, int] = field(default_factory=dict)
    unsure: set[int] = field(default_factory=set)


class Types:
    """Gathers the ship types of a log, line by line, for windows of lines that begin at these times."""

    def __init__(self, begin: int, end: int, slack: int, firsts: list[int]) -> None:
        self.begin, self.end, self.slack, self.firsts = begin, end, slack, sorted(firsts)
        self.joiner = Joiner()
        self.time: int | None = None
        self.clock: int | None = None
        self.notes: dict[int, list[Stretch]] = {}
        self.joiners = {first: Joiner() for first in self.firsts}
        self.unsure: dict[int, set[int]] = {first: set() for first in self.firsts}
        self.heard: dict[int, set[int]] = {}

    def take(self, lines: Iterable[bytes]) -> None:
        """Takes lines of the log."""
        for line in lines:
            stamp, clock = stamp_of(line), self.clock
            if stamp is not None:
                self.time = stamp
                if self.begin <= stamp <= self.end and (clock is None or stamp > clock):
                    self.clock = stamp
            found = HEAD.search(line)
            if found and self.time is not None and sender_of(found[1]) in self.notes:
                self.heard.setdefault(sender_of(found[1]) or 0, set()).add(self.time // HOUR)
            if CANDIDATE.search(line):
                self.take_sentence(line, clock)

    def take_sentence(self, line: bytes, clock: int | None) -> None:
        """Takes a line that may report a ship type, given the clock before it."""
        sentence, time = sentence_of(line), self.time
        is_late = clock is not None and time is not None and time + self.slack < clock
        if sentence is None or time is None or not self.begin <= time <= self.end or is_late:
            return
        message = self.joiner.take(sentence, time)
        told = ship_type(bits_of(message.parts)) if message else None
        if message and told:
            self.note(told[0], told[1] if told[1] in RANKED else 0, message)
        if sentence.total > 1:
            near = bisect.bisect_left(self.firsts,
                                      time - 2 * JOINED_WITHIN - self.slack), bisect.bisect_right(self.firsts, time)
            for first in self.firsts[slice(*near)]:
                self.compare(first, self.joiners[first].take(sentence, time), message)

    def note(self, mmsi: int, kind: int, message: Message) -> None:
        known = self.notes.setdefault(mmsi, [])
        if known and known[-1].kind == kind:
            known[-1].earliest, known[-1].latest = min(known[-1].earliest,
                                                       message.earliest), max(known[-1].latest, message.time)
        else:
            known.append(Stretch(kind, message.earliest, message.time))

    def compare(self, first: int, alone: Message | None, whole: Message | None) -> None:
        """Notes the sender of a message if a window joins its parts differently from the whole log."""
        if alone is not None and (whole is None or whole.parts != alone.parts):
            bits = bits_of(alone.parts)
            if bits.width >= 38:
                self.unsure[first].add(bits.number(8, 30))

    def before(self, first: int, last: int) -> Before:
        """Returns the knowledge before the window of lines from `first` to `last`."""
        found, hours = self.known_before(first), range(first // HOUR, last // HOUR + 1)
        found.types = {
            mmsi: kind for mmsi, kind in found.types.items() if not self.heard.get(mmsi, set()).isdisjoint(hours)
        }
        return found

    def known_before(self, first: int) -> Before:
        """Returns the same for all vessels, even those that the window does not hear."""
        found = Before(unsure=set(self.unsure.get(first, set())))
        for mmsi, known in self.notes.items():
            earlier = [k for k, stretch in enumerate(known) if stretch.earliest < first]
            if not earlier:
                continue
            if any(stretch.latest >= first for stretch in known[:earlier[-1]]):
                found.unsure.add(mmsi)
            if known[earlier[-1]].kind:
                found.types[mmsi] = known[earlier[-1]].kind
        return found
