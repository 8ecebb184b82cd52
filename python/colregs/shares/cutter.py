"""Cuts a share's log out of the lines of its files. It runs as a separate process: `cutter` on standard input, with a
Cut as JSON.

The cut log gives the same lines to the program as the whole log does. It omits lines outside the window of lines, lines
without a stamp that take their time from such a line, and lines that a stamp after the window's end makes late. It
begins with the ship types that were reported earlier.
"""
import dataclasses
import json
import sys
from collections.abc import Iterable, Iterator, Mapping
from dataclasses import dataclass
from typing import Any, BinaryIO

from colregs.io.lines import LONGEST, stamp_of
from colregs.io.sentences import block, hull_part, sentence
from colregs.io.sieve import Sieve, part_of
from colregs.shares.reads import COPY, LINES, SEEK, SKIP, Ended, Read, lines_within, needed, opened, pieces, skip


@dataclass
class Cut:
    """Selects a share's part of a log.

    `first` and `last` bound the share's window of lines in seconds, `begin` and `end` that of the whole audit. `time`
    and `clock` are the last stamp before the files, and the greatest one that counts. `types` are ship types to begin
    with. The cut leaves the lines of `vessels`, or of the vessels of `part`, an index and a count; without both it
    leaves all lines.
    """

    first: int
    last: int
    begin: int
    end: int
    slack: int
    time: int | None = None
    clock: int | None = None
    types: dict[str, int] = dataclasses.field(default_factory=dict)
    vessels: list[int] | None = None
    part: tuple[int, int] | None = None

    def told(self) -> dict[str, Any]:
        """Returns the cut as values for JSON."""
        return dataclasses.asdict(self)

    def text(self) -> str:
        """Returns the cut as JSON."""
        return json.dumps(self.told())


def typed_lines(types: Mapping[str, int], at: int) -> Iterator[bytes]:
    """Yields a message 24 for each ship type that was reported before a window, with the time of its first lines."""
    for mmsi, kind in sorted(types.items()):
        yield block(max(0, at)) + sentence(hull_part(int(mmsi), kind, (0, 0, 0, 0))) + b"\n"


class Cutting:
    """Cuts lines to a window so that they have the same times as in the whole log. Bytes that are skipped or copied
    only move the clock."""

    def __init__(self, cut: Cut) -> None:
        self.cut, self.time, self.clock = cut, cut.time, cut.clock
        self.shown: int | None = None                   # the time of the last line in the cut

    def lines(self, lines: Iterable[bytes]) -> Iterator[bytes]:
        """Yields the lines of the window. A line with the same tag block as the line before is treated like it."""
        cut, time, clock, shown = self.cut, self.time, self.clock, self.shown
        first, last, begin, end, slack = cut.first, cut.last, cut.begin, cut.end, cut.slack
        tag, kept = b"\n", False                        # only an empty line begins so, and it changes nothing
        for line in lines:
            if line.startswith(tag) and len(line) <= LONGEST:
                if kept:
                    yield line
                continue
            stamp = stamp_of(line)
            if stamp is not None:
                time, tag = stamp, line[:line.find(b"\\", 1) + 1]
            late = clock is not None and time is not None and clock > last and time + slack < clock
            if stamp is not None:
                if begin <= stamp <= end and (clock is None or stamp > clock):
                    clock = stamp
            if time is None:
                if first == begin:
                    yield line                          # its time is the start of the whole audit and of this window
                continue
            kept = first <= time <= last and not late
            if kept:
                if stamp is None and shown != time:
                    yield block(time) + b"\n"
                shown = time
                yield line
        self.time, self.clock, self.shown = time, clock, shown

    def passed(self, read: Read) -> None:
        """Notes that bytes were skipped or copied unchanged."""
        self.time = self.time if read.last is None else read.last
        self.clock = max((at for at in (self.clock, read.clock) if at is not None), default=None)
        if read.what == COPY:
            self.shown = self.time


def cut_lines(lines: Iterable[bytes], cut: Cut) -> Iterator[bytes]:
    """Yields the lines of the window, with the same times as in the whole log."""
    yield from Cutting(cut).lines(lines)


def cut_files(files: list[str], reads: list[list[Read]], cut: Cut) -> Iterator[bytes]:
    """Yields the lines of the window from files, given the relevant bytes; copied bytes come in chunks."""
    cutting = Cutting(cut)
    for path, of_file in zip(files, reads):
        begin = of_file[0].size if of_file and of_file[0].what == SEEK else 0
        wanted = needed(of_file)
        if wanted:
            with opened(path, begin) as source:
                yield from read_file(source, wanted, cutting)
        for read in of_file[len(wanted):]:
            cutting.passed(read)


def read_file(source: BinaryIO, reads: list[Read], cutting: Cutting) -> Iterator[bytes]:
    """Yields the cut of a file."""
    for read in reads:
        if read.what == LINES:
            yield from cutting.lines(lines_within(source, read.size))
        elif read.what == COPY:
            yield from pieces(source, read.size)
        elif read.what == SKIP:
            skip(source, read.size)
        if read.what in (SKIP, COPY):
            cutting.passed(read)


def lines_of(pieces_: Iterable[bytes]) -> Iterator[bytes]:
    """Yields the lines of chunks that may end within a line."""
    rest = b""
    for piece in pieces_:
        *whole, rest = (rest + piece).split(b"\n")
        yield from (line + b"\n" for line in whole)
    if rest:
        yield rest


def share_lines(lines: Iterable[bytes], cut: Cut) -> Iterator[bytes]:
    """Yields the whole log of a share."""
    yield from typed_lines(cut.types, cut.first)
    yield from sifted(cut_lines(lines, cut), cut)


def share_of_files(files: list[str], reads: list[list[Read]], cut: Cut) -> Iterator[bytes]:
    """Yields the whole log of a share from files, given the relevant bytes."""
    yield from typed_lines(cut.types, cut.first)
    left = cut_files(files, reads, cut)
    yield from left if cut.vessels is None and cut.part is None else sifted(lines_of(left), cut)


def sifted(left: Iterable[bytes], cut: Cut) -> Iterator[bytes]:
    """Yields the lines of the share's vessels."""
    if cut.vessels is not None:
        return Sieve(set(cut.vessels).__contains__, cut.slack).left(left)
    return Sieve(part_of(*cut.part), cut.slack).left(left) if cut.part is not None else iter(left)


def main() -> None:
    """Writes the share's log to standard output. The only argument is a file with the Cut, and optionally the files and
    their reads."""
    with open(sys.argv[1], encoding="utf-8") as source:
        told = json.load(source)
    files, reads = told.pop("files", None), told.pop("reads", None)
    cut = Cut(**told)
    if reads is None:
        log = share_lines(sys.stdin.buffer, cut)
    else:
        log = share_of_files(files, [[Read(*read) for read in of_file] for of_file in reads], cut)
    try:
        sys.stdout.buffer.writelines(log)
    except Ended:
        sys.exit("a file is shorter than when the share was planned; plan again")
    sys.stdout.buffer.flush()
