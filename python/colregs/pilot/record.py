"""The sentences that the pilot stores: those of the recent history, and each vessel's last static data of any age."""
from __future__ import annotations

from collections import deque

from colregs.io.sentences import block
from colregs.io.sieve import Senders

LONGEST = 1024                     # the most bytes of a line that the program reads (docs/LOG.md)
MOST_BYTES = 48 << 20              # of all stored lines
STATIC = (b"5", b"H")              # the first letter of the payload of messages 5 and 24
MOST_STATIC = 4096                 # vessels with stored static data, the same limit as the program's


def part_letter(payload: bytes) -> bytes:
    """Returns the part letter of a payload of message 24, and an empty text for other messages. The part is in bits 38
    and 39, in the seventh letter."""
    if payload[:1] != b"H" or len(payload) < 7:
        return b""
    code = payload[6] - 48
    return b"%d" % ((code - 8 if code > 40 else code) >> 2 & 3)


class Record:
    """Lines with their times, the oldest first, for at most the history."""

    def __init__(self, history: int) -> None:
        """`history` is the number of seconds for which lines are stored."""
        self.history = history
        self.lines: deque[tuple[int, bytes]] = deque()
        self.statics: dict[int, dict[bytes, tuple[bytes, ...]]] = {}
        # messages 5 without their second part so far
        self.begun: dict[int, tuple[list[bytes], tuple[bytes, ...]]] = {}
        self.senders, self.bytes, self.unread = Senders(), 0, 0

    def take(self, line: bytes, now: int) -> None:
        """Takes a line with its time. Counts a line without a sentence, or too long for the program, and drops it."""
        line = line.strip()
        if not line:
            return
        if b"!" not in line or len(line) > LONGEST:
            self.unread += 1
            return
        sentence = line[line.index(b"!"):]
        self.lines.append((now, line if line.startswith(b"\\") else block(now) + line))
        self.bytes += len(line)
        self.take_static(sentence)
        self.forget(now)

    def take_static(self, sentence: bytes) -> None:
        """Stores a sentence of static data, because it may be the vessel's only one in a long time. Stores a sentence
        of several parts after all have arrived."""
        mmsi = self.senders.of(sentence)
        fields = sentence.split(b",", 6)
        if mmsi is None or len(fields) < 7:
            return
        if fields[2] != b"1":
            begun = self.begun.pop(mmsi, None)
            if begun is not None and fields[1:2] + fields[3:5] == begun[0]:
                self.hold_static(mmsi, b"5", begun[1] + (sentence,))
        elif fields[5][:1] == b"5" and fields[1] == b"2":
            if len(self.begun) < MOST_STATIC:
                self.begun[mmsi] = (fields[1:2] + fields[3:5], (sentence,))
        elif fields[5][:1] in STATIC:
            self.hold_static(mmsi, fields[5][:1] + part_letter(fields[5]), (sentence,))

    def hold_static(self, mmsi: int, kind: bytes, sentences: tuple[bytes, ...]) -> None:
        """Stores the sentences of one message; they replace the vessel's last message of the same kind."""
        if mmsi in self.statics or len(self.statics) < MOST_STATIC:
            self.statics.setdefault(mmsi, {})[kind] = sentences

    def forget(self, now: int) -> None:
        """Drops the lines that are older than the history, and the oldest lines above the limit of bytes."""
        while self.lines and (self.lines[0][0] < now - self.history or self.bytes > MOST_BYTES):
            self.bytes -= len(self.lines.popleft()[1])

    def begins(self) -> int | None:
        """Returns the time of the oldest stored line, in seconds since the Unix epoch."""
        return self.lines[0][0] if self.lines else None

    def log(self, begins: int, ends: int) -> bytes:
        """Returns the lines from one time to another as a log. Each vessel's last static data comes first, with the
        first time."""
        static = [
            block(begins) + sentence for kinds in self.statics.values() for parts in kinds.values()
            for sentence in parts
        ]
        found = [line for at, line in self.lines if begins <= at <= ends]
        return b"".join(line + b"\n" for line in static + found)
