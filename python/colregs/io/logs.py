"""The lines of a log with tag blocks: their times, and samples of a long log."""
import os
from collections.abc import Iterable, Iterator

from colregs.io.tag_blocks import stamp

SMALL = 1 << 20             # bytes: a log up to this is read whole
SOUGHT = 64                 # places in a longer log that are examined, and lines at each
LAST, LAST_LINES = 64 * 1024, 1000      # bytes before the end that are examined, and lines at most
LONGEST = 1025              # bytes of a line: the program drops longer ones


def timed(lines: Iterable[bytes]) -> Iterator[tuple[int | None, bytes]]:
    """Yields each line with its time: that of its tag block, or else of the nearest line before; None before the
    first."""
    time = None
    for line in lines:
        own = stamp(line)
        time = time if own is None else own
        yield time, line


def sampled(log: str) -> Iterator[bytes]:
    """Yields lines from all over a log, its first and last among them; all lines of a small one."""
    size = os.path.getsize(log)
    with open(log, "rb") as source:
        if size < SMALL:
            yield from source
            return
        for place in [size * k // SOUGHT for k in range(SOUGHT)] + [size - LAST]:
            source.seek(place)
            if place:
                source.readline(LONGEST)
            yield from (source.readline(LONGEST) for _ in range(SOUGHT if place < size - LAST else LAST_LINES))
