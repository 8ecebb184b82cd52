"""The clocks of several receivers of one log: how far one is ahead of another, by messages that both heard, and the log
with that taken out.

A receiver is known by the field `s` of its tag blocks. Both hear a message at one time, so the usual difference of its
two times is that of the clocks.
"""
import collections
import os
import re
from collections.abc import Iterator, Mapping
from dataclasses import dataclass

from colregs.io.sentences import block
from colregs.io.tag_blocks import stamp

LINE = re.compile(rb"\\c:(\d{10}),([^*\\]*)\*..\\(!..VD[MO],1,1,[^,]*,[^,]*,([^,]+),[^\n]*)")
SOURCE = re.compile(rb"(?:^|,)s:([^,*\\]+)")
LONGEST = 1 << 20               # bytes of a line
# s between the two times of a message, messages that both heard, and lines that are compared
WINDOW, LEAST, COUNTED = 600, 20, 400000


@dataclass(frozen=True)
class Ahead:
    """How many seconds the clock of a receiver is ahead of another one's, by how many messages."""

    name: str
    other: str
    seconds: int
    messages: int


def sources(log: str) -> Iterator[tuple[int, str, bytes]]:
    """Yields time, receiver and payload of the messages in one sentence that name a receiver."""
    with open(log, "rb") as lines:
        for line, _ in zip(lines, range(COUNTED)):
            found = LINE.match(line)
            name = SOURCE.search(found[2]) if found else None
            if found and name:
                yield int(found[1]), name[1].decode("utf-8", "replace"), found[4]


def ahead(log: str) -> list[Ahead]:
    """Returns how far the clocks of a sorted log's receivers are ahead of that of the one with most lines; none that
    agree."""
    counts: collections.Counter[str] = collections.Counter()
    heard: dict[bytes, list[tuple[int, str]]] = {}
    for at, name, payload in sources(log):
        counts[name] += 1
        heard.setdefault(payload, []).append((at, name))
    if len(counts) < 2:
        return []
    main = counts.most_common(1)[0][0]
    apart: dict[str, collections.Counter[int]] = {name: collections.Counter() for name in counts if name != main}
    for times in heard.values():
        mine = [at for at, name in times if name == main]
        for at, name in times:
            if name != main and mine:
                near = min(mine, key=lambda other: abs(other - at))
                if abs(at - near) <= WINDOW:
                    apart[name][at - near] += 1
    found = []
    for name, differences in sorted(apart.items()):
        seconds, _ = differences.most_common(1)[0] if differences else (0, 0)
        like = sum(count for value, count in differences.items() if abs(value - seconds) <= 1)
        if abs(seconds) > 1 and like >= LEAST and 2 * like > sum(differences.values()):
            found.append(Ahead(name, main, seconds, like))
    return found


def ends(log: str) -> tuple[int | None, int | None]:
    """Returns the first and last time of a sorted log."""
    with open(log, "rb") as lines:
        first = lines.readline()
        lines.seek(max(0, os.path.getsize(log) - LONGEST))
        last = lines.read().splitlines()[-1]
    return stamp(first), stamp(last)


def words(found: Ahead) -> str:
    """Returns how far a clock is ahead, in words."""
    side = "ahead of" if found.seconds > 0 else "behind"
    return (f"the clock of {found.name} is {abs(found.seconds)} s {side} that of {found.other}, "
            f"by {found.messages:,} messages that both heard")


def align(log: str, seconds: Mapping[str, int]) -> None:
    """Takes the differences of clocks out of a log; its lines are then no longer in the order of their times."""
    part = log + ".part"
    with open(log, "rb") as source, open(part, "wb") as out:
        for line in source:
            end = line.find(b"\\", 1)
            fields = line[1:end].rsplit(b"*", 1)[0].split(b",", 1) if line.startswith(b"\\c:") and end > 0 else []
            name = SOURCE.search(fields[1]) if len(fields) > 1 else None
            more = seconds.get(name[1].decode("utf-8", "replace"), 0) if name else 0
            out.write(block(int(fields[0][2:]) - more, fields[1]) + line[end + 1:] if more else line)
    os.replace(part, log)
