"""Leaves the lines of some vessels, and of all others what the program needs to read those as in the whole log.

A line is left out only if the program reads it as a sentence of another vessel, or drops it whatever stands before it.
Of such a line the tag block stays, which keeps the clock. Of another vessel's message in parts the last one is left
out: the parts before it stay, since they also end what came before with the same identifier and channel.
"""
import re
from collections.abc import Callable, Iterable, Iterator

from colregs.io.lines import LONGEST, Joiner, Message, bits_of, line_of, sender_of, sentence_of, stamp_of

LONE = re.compile(
    rb"(\\[^\\\n]*\\)?![A-Z0-9]{2}VD[MO],1,1,\d?,[A-Za-z0-9]?,([0-W`-w]{7})[^,\n]*,[0-5]\*[0-9A-Fa-f]{2}(?=[, "
    rb"\t\r\n]|$)"
)
PART = re.compile(rb"(\\[^\\\n]*\\)?![A-Z0-9]{2}VD[MO],[2-9],")
SENDER = 8, 30                      # first bit and width of a message's MMSI


class Senders:
    """Returns which vessel a sentence is of, where its own letters or the first part with its identifier and channel
    say so."""

    def __init__(self) -> None:
        self.parts: dict[tuple[bytes, bytes], int | None] = {}

    def of(self, line: bytes) -> int | None:
        """Returns the MMSI of a line, or None if the line does not say."""
        at = line.find(b"!")
        fields = line[at:].split(b",", 6) if at >= 0 else []
        if len(fields) < 7:
            return None
        if fields[2] != b"1":
            return self.parts.get((fields[3], fields[4]))
        mmsi = sender_of(fields[5][:7])
        if fields[1] != b"1":
            self.parts[fields[3], fields[4]] = mmsi
        return mmsi


class Sieve:
    """Leaves the lines of the vessels for which `is_kept` holds, by a log's clock and the slack of its scenario."""

    def __init__(self, is_kept: Callable[[int], bool], slack: int) -> None:
        self.is_kept, self.slack, self.joiner = is_kept, slack, Joiner()
        self.time: int | None = None
        self.clock: int | None = None

    def left(self, lines: Iterable[bytes]) -> Iterator[bytes]:
        """Yields what is left of lines, each with its line feed."""
        for line in lines:
            stamp = stamp_of(line)
            before, self.time = self.clock, self.time if stamp is None else stamp
            if stamp is not None:
                self.clock = stamp if before is None else max(before, stamp)
            if self.is_foreign(line, before):
                if line.startswith(b"\\"):
                    yield line[:line.find(b"\\", 1) + 1] + b"\n"
            else:
                yield line

    def is_foreign(self, line: bytes, clock: int | None) -> bool:
        """Returns whether a line can be left out."""
        found = LONE.match(line)
        if found:
            mmsi = sender_of(found[2])
            return len(line_of(line)) <= LONGEST and mmsi is not None and not self.is_kept(mmsi)
        message = self.completed(line, clock) if PART.match(line) else None
        if message is None:
            return False
        bits = bits_of(message.parts)
        return bits.width >= sum(SENDER) and not self.is_kept(bits.number(*SENDER))

    def completed(self, line: bytes, clock: int | None) -> Message | None:
        """Returns the message that a part completes, if the part is in time."""
        sentence = sentence_of(line)
        late = clock is not None and self.time is not None and self.time + self.slack < clock
        return None if sentence is None or self.time is None or late else self.joiner.take(sentence, self.time)


def part_of(place: int, parts: int) -> Callable[[int], bool]:
    """Returns a test for the vessels whose MMSI leaves `place` when it is divided by `parts`."""
    return lambda mmsi: mmsi % parts == place
