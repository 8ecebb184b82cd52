"""Reads the files of an archive once for their times, which a plan of windows needs, and for the places of lines by
time."""
import collections
import itertools
import subprocess
import zlib
from collections.abc import Iterable, Iterator
from dataclasses import dataclass, field
from typing import NamedTuple

from colregs.errors import Fault, reason
from colregs.io.files import sum_of
from colregs.io.lines import LONGEST, OF_LINES, TAGS, stamp_of, stamp_of_block
from colregs.io.packing import packing
from colregs.run.pipes import reader

HOUR = 3600             # s
FAR = 24                # few stamps at least this many hours before or after all others are not believed
FEW = 10                # fewer stamps than this are few
PIECE = 1 << 20         # bytes of lines in a chunk, which is a block unless a file has more than MOST_BLOCKS
MOST_BLOCKS = 2048
GZIP = 31               # zlib's window for a member of gzip
STRIDE = LONGEST // 2   # bytes: any longer line, wherever it begins, has all bytes between two multiples of this


class Block(NamedTuple):
    """Successive lines of a file: their size in bytes, whether the first one has a stamp, and the least, the greatest
    and the last stamp.

    In a block without stamps the least is 1 and the greatest is 0.
    """

    size: int
    begins: bool
    least: int
    greatest: int
    last: int

    def joined(self, other: "Block") -> "Block":
        """Returns this block joined with the next one."""
        if self.least > self.greatest or other.least > other.greatest:
            told = self if other.least > other.greatest else other
            return Block(self.size + other.size, self.begins, told.least, told.greatest, told.last)
        return Block(self.size + other.size, self.begins, min(self.least, other.least),
                     max(self.greatest, other.greatest), other.last)


@dataclass
class Span:
    """A file: its hash, the number of stamps per hour with the least and the greatest, its last stamp, and its blocks.

    If it is compressed, reading can start at its `members`: an offset in the file, and the bytes of lines before it.
    `open` is true if the last line has no line feed.
    """

    path: str
    sum: str
    hours: dict[int, list[int]] = field(default_factory=dict)
    last_stamp: int | None = None
    blocks: list[Block] = field(default_factory=list)
    members: list[tuple[int, int]] = field(default_factory=list)
    open: bool = False
    # how many hours, and their ends
    known: tuple[int, tuple[int, int]] | None = field(default=None, repr=False, compare=False)

    def bounds(self, until: int) -> tuple[int, int] | None:
        """Returns the least and the greatest stamp up to a time; None without stamps."""
        if self.hours and until >= self.ends()[1]:
            return self.ends()
        told = [entry for entry in self.hours.values() if entry[1] <= until]
        return (min(entry[1] for entry in told), min(until, max(entry[2] for entry in told))) if told else None

    def ends(self) -> tuple[int, int]:
        """Returns the least and the greatest stamp of a file with at least one stamp."""
        if self.known is None or self.known[0] != len(self.hours):
            self.known = len(self.hours), (min(entry[1] for entry in self.hours.values()),
                                           max(entry[2] for entry in self.hours.values()))
        return self.known[1]

    def take(self, tags: list[bytes], until: int | None) -> tuple[int, int, int]:
        """Takes the tag blocks of a chunk; returns the least, the greatest and the last stamp, or 1, 0 and 0 without
        stamps."""
        told = [(stamp, count)
                for tag, count in collections.Counter(tags).items()
                if (stamp := stamp_of_block(tag)) is not None]
        if not told:
            return 1, 0, 0
        for hour, group in itertools.groupby(told, lambda one: one[0] // HOUR):
            counted = [one for one in group if until is None or one[0] <= until]
            if counted:
                least, greatest = min(counted)[0], max(counted)[0]
                entry = self.hours.setdefault(hour, [0, least, greatest])
                entry[:] = entry[0] + sum(count for _, count in counted), min(entry[1], least), max(entry[2], greatest)
        self.last_stamp = next(stamp for tag in reversed(tags) if (stamp := stamp_of_block(tag)) is not None)
        return min(told)[0], max(told)[0], self.last_stamp


class Unclear(Exception):
    """Raised for a compressed file that is damaged or not a plain sequence of members. The command that decompresses it
    reports more."""


def read_span(path: str, until: int | None) -> Span:
    """Reads a file to its end; stamps after `until` do not count."""
    total, kind = sum_of(path)[0], packing(path)
    if kind == "gzip":
        span = Span(path, total)
        try:
            return taken(span, unpacked(span), until)
        except Unclear:
            pass
    return taken(Span(path, total), plain(path) if kind == "plain" else by_command(path), until)


def taken(span: Span, pieces: Iterable[bytes], until: int | None) -> Span:
    """Takes the chunks of a file and cuts them into blocks of whole lines."""
    rest = b""
    for piece in pieces:
        lines, feed, rest_of_piece = piece.rpartition(b"\n")
        if feed:
            take_block(span, rest + lines + feed, until)
            rest = rest_of_piece
        else:
            rest += piece
    if rest:
        span.open = True
        take_block(span, rest, until)
    return span


def take_block(span: Span, lines: bytes, until: int | None) -> None:
    """Takes whole lines as a block."""
    begins = stamp_of(lines.partition(b"\n")[0]) is not None
    add_block(span.blocks, Block(len(lines), begins, *span.take(tags_of(lines), until)))


def tags_of(lines: bytes) -> list[bytes]:
    """Returns the tag blocks, in order, of the lines that are short enough for the program."""
    if not may_be_long(lines) or max(map(len, lines.split(b"\n"))) <= LONGEST:
        tags = TAGS.findall(b"\n" + lines)
        return OF_LINES.findall(b"\n" + lines) if b"\n" in b"".join(tags) else tags
    return [line[:line.find(b"\\", 1) + 1] for line in lines.split(b"\n") if stamp_of(line) is not None]


def may_be_long(lines: bytes) -> bool:
    """Returns whether a line may be longer than is read: such a line has a whole stretch of STRIDE bytes."""
    return any(lines.find(b"\n", at, at + STRIDE) < 0 for at in range(0, len(lines) - STRIDE + 1, STRIDE))


def add_block(blocks: list[Block], block: Block) -> None:
    """Adds a block; if there are too many, joins them in pairs."""
    if len(blocks) >= 2 * MOST_BLOCKS:
        blocks[:] = [one.joined(other) for one, other in zip(blocks[::2], blocks[1::2])]
    blocks.append(block)


def plain(path: str) -> Iterator[bytes]:
    """Yields the bytes of a file."""
    try:
        with open(path, "rb") as source:
            while piece := source.read(PIECE):
                yield piece
    except OSError as error:
        raise Fault(f"cannot read {path}: {reason(error)}") from None


def unpacked(span: Span) -> Iterator[bytes]:
    """Yields the bytes of a gzip file, and notes the starts of members that are some distance apart."""
    before, read, unpacker = 0, 0, zlib.decompressobj(GZIP)
    for packed in plain(span.path):
        read += len(packed)
        while packed:
            try:
                piece = unpacker.decompress(packed, PIECE)
            except zlib.error:
                raise Unclear from None
            before, packed = before + len(piece), unpacker.unconsumed_tail
            if piece:
                yield piece
            if unpacker.eof:
                packed, unpacker = unpacker.unused_data, zlib.decompressobj(GZIP)
                add_member(span.members, (read - len(packed), before))
    if not span.members or span.members[-1][0] != read:
        raise Unclear                                   # incomplete, or its last member was too near to be noted
    span.members.pop()


def add_member(members: list[tuple[int, int]], place: tuple[int, int]) -> None:
    """Notes the start of a member; it replaces the previous one if that is near."""
    if len(members) > 1 and place[1] - members[-2][1] < PIECE:
        members.pop()
    if len(members) >= 2 * MOST_BLOCKS:
        del members[::2]
    members.append(place)


def by_command(path: str) -> Iterator[bytes]:
    """Yields the bytes of a file that a command decompresses."""
    with subprocess.Popen(["bash", "-c", reader([path])], stdout=subprocess.PIPE, stderr=subprocess.PIPE) as log:
        assert log.stdout and log.stderr
        while piece := log.stdout.read(PIECE):
            yield piece
        words = log.stderr.read().decode("utf-8", "replace").strip()
    if log.returncode:
        raise Fault(f"cannot read {path} to its end: {words}")


@dataclass
class Believed:
    """The first and the last believed stamp of an archive; and the number of stamps outside, with the farthest one."""

    first: int
    last: int
    outside: int = 0
    farthest: int = 0


def believed(spans: list[Span], start: int) -> Believed:
    """Returns the believed stamps. It rejects groups of fewer than ten stamps more than a day before or after all
    others."""
    hours: dict[int, list[int]] = {}
    for span in spans:
        for hour, (count, least, greatest) in span.hours.items():
            entry = hours.setdefault(hour, [0, least, greatest])
            entry[:] = entry[0] + count, min(entry[1], least), max(entry[2], greatest)
    order = sorted(hours)
    if not order:
        return Believed(start, start)
    counts = [hours[hour][0] for hour in order]
    after = few_at_the_end(order, counts)
    before = few_at_the_end([-hour for hour in reversed(order)], counts[::-1])
    if before + after >= len(order):
        before = 0
    kept, left = order[before:len(order) - after], order[:before] + order[len(order) - after:]
    first, last = hours[kept[0]][1], hours[kept[-1]][2]
    far = max((stamp for hour in left for stamp in hours[hour][1:]), key=lambda stamp: max(first - stamp, stamp - last),
              default=0)
    return Believed(first, last, sum(hours[hour][0] for hour in left), far)


def few_at_the_end(order: list[int], counts: list[int]) -> int:
    """Returns the number of last hours that have few stamps and are far after all others."""
    beyond, cut, every = 0, len(order), sum(counts)
    for k in range(len(order) - 1, 0, -1):
        beyond += counts[k]
        if beyond >= FEW or beyond * FEW > every:
            break
        if order[k] - order[k - 1] > FAR:
            cut = k
    return len(order) - cut


def clock_before(spans: list[Span], number: int, until: int) -> tuple[int | None, int | None]:
    """Returns the last stamp before a file, and the greatest stamp that counts in the files before it."""
    last = next((span.last_stamp for span in reversed(spans[:number]) if span.last_stamp is not None), None)
    tops = [bounds[1] for span in spans[:number] if (bounds := span.bounds(until))]
    return last, max(tops, default=None)
