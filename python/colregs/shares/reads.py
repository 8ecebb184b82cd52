"""Which bytes of its files a share reads: those that it skips, those that it copies unchanged, and those whose lines it
must cut.

It copies a block of lines unchanged if all its stamps are in the share's window, its first line has one, and no stamp
up to its end is after the window. Then no line of it is outside or late. It skips a block whose stamps are all outside
the window; such a block only moves the clock.
"""
import os
import subprocess
from collections.abc import Iterable, Iterator
from contextlib import contextmanager
from typing import BinaryIO, NamedTuple

from colregs.io.packing import packing
from colregs.run.pipes import READERS
from colregs.shares.spans import Block, Span

SEEK, SKIP, COPY, LINES = "seek", "skip", "copy", "lines"
PIECE = 1 << 20         # bytes of a chunk that is copied


class Read(NamedTuple):
    """What to do with the next bytes of a file. `last` is the last stamp of skipped or copied bytes, `clock` the
    greatest stamp that counts.

    `seek` is the byte at which to start a compressed file.
    """

    what: str
    size: int
    last: int | None = None
    clock: int | None = None


class Window(NamedTuple):
    """The first and the last second of a share's lines, and those of the whole audit's."""

    first: int
    last: int
    begin: int
    end: int


def reads_of(spans: list[Span], window: Window, clock: int | None) -> list[list[Read]] | None:
    """Returns a share's reads of each of its files, given the clock before them; None if a file does not end with a
    whole line."""
    if any(span.open for span in spans[:-1]):
        return None
    found: list[list[Read]] = []
    for span in spans:
        reads: list[Read] = []
        for block in span.blocks:
            read = read_of(block, window, clock)
            clock = max((at for at in (clock, read.clock if read.what != LINES else min(block.greatest, window.end))
                         if at is not None), default=None)
            reads[-1:] = joined(reads[-1], read) if reads else [read]
        found.append(from_member(span, reads))
    return found


def read_of(block: Block, window: Window, clock: int | None) -> Read:
    """Returns what to do with a block, given an upper bound of the clock before it."""
    counts = window.begin <= block.least and block.greatest <= window.end
    never = block.greatest < window.begin or block.least > window.end
    top = block.greatest if counts else None
    if not block.begins or block.least > block.greatest:
        return Read(LINES, block.size)
    if (block.greatest < window.first or block.least > window.last) and (counts or never):
        return Read(SKIP, block.size, block.last, top)
    if window.first <= block.least and block.greatest <= window.last and (clock is None or clock <= window.last):
        return Read(COPY, block.size, block.last, top)
    return Read(LINES, block.size)


def joined(one: Read, other: Read) -> list[Read]:
    """Returns two reads, joined into one if they do the same."""
    if one.what != other.what:
        return [one, other]
    return [
        Read(one.what, one.size + other.size, other.last,
             max((at for at in (one.clock, other.clock) if at is not None), default=None))
    ]


def from_member(span: Span, reads: list[Read]) -> list[Read]:
    """Starts a compressed file at the last member before the first needed byte."""
    if not reads or reads[0].what != SKIP:
        return reads
    packed, before = max((place for place in span.members if place[1] <= reads[0].size), default=(0, 0))
    return [Read(SEEK, packed), reads[0]._replace(size=reads[0].size - before), *reads[1:]] if before else reads


@contextmanager
def opened(path: str, begin: int) -> Iterator[BinaryIO]:
    """Opens a file, compressed or not, at a byte."""
    with open(path, "rb", buffering=0) as source:
        source.seek(begin)
        kind = packing(path)
        if kind == "plain":
            with open(source.fileno(), "rb", closefd=False) as lines:
                yield lines
            return
        command = READERS[kind].removesuffix(" --").split()
        with subprocess.Popen(command, stdin=source, stdout=subprocess.PIPE, stderr=subprocess.DEVNULL) as unpacked:
            assert unpacked.stdout
            try:
                yield unpacked.stdout                   # type: ignore[misc]
            finally:
                unpacked.kill()                         # the rest is not needed


class Ended(Exception):
    """Raised if a file has fewer bytes than when it was planned."""


def pieces(source: BinaryIO, size: int) -> Iterator[bytes]:
    """Yields the next bytes of a file."""
    while size:
        piece = source.read(min(size, PIECE))
        if not piece:
            raise Ended
        size -= len(piece)
        yield piece


def lines_within(source: BinaryIO, size: int) -> Iterator[bytes]:
    """Yields the lines of the next bytes of a file, which are whole lines."""
    while size > 0:
        line = source.readline()
        if not line:
            raise Ended
        size -= len(line)
        yield line


def skip(source: BinaryIO, size: int) -> None:
    """Skips the next bytes of a file."""
    if source.seekable():
        source.seek(size, os.SEEK_CUR)
    else:
        for _ in pieces(source, size):
            pass


def needed(reads: Iterable[Read]) -> list[Read]:
    """Returns the reads up to the last one that is not a skip."""
    found = list(reads)
    while found and found[-1].what in (SKIP, SEEK):
        found.pop()
    return found
