"""The sources of a stream: standard input, a growing file, or a command that restarts after its end."""
import json
import os
import subprocess
import sys
import time
from collections.abc import Iterable, Iterator
from typing import BinaryIO, Protocol

from colregs.errors import Fault, report
from colregs.io.files import replace

# bytes of a read; s between checks of a file; s before a command restarts
BLOCK, PAUSE, AGAIN = 1 << 16, 0.2, 5
STATE = "source.json"           # in the folder of the day files: how far a log was read


Mark = dict[str, int] | None                 # the position of taken lines, for a restart
Lines = tuple[list[bytes], Mark]


class Source(Protocol):
    """A source of a stream."""

    def lines(self) -> Iterator[Lines]:
        """Yields lists of whole lines as they arrive, each with a mark for `done`."""

    def done(self, mark: Mark) -> None:
        """Notes that the lines up to a mark are taken."""

    def stop(self) -> None:
        """Stops the process that writes the stream."""


def lines_of_blocks(blocks: Iterable[bytes]) -> Iterator[Lines]:
    """Yields lists of whole lines as they arrive, without a mark. Bytes after the last line feed wait."""
    rest = b""
    for block in blocks:
        lines = (rest + block).split(b"\n")
        rest = lines.pop()
        if len(rest) > 1 << 20:
            rest = rest[:2048]                          # longer than any line of a log
        if lines:
            yield [line + b"\n" for line in lines], None


def blocks_of(descriptor: int) -> Iterator[bytes]:
    """Yields blocks as they arrive."""
    while block := os.read(descriptor, BLOCK):
        yield block


class Standard:
    """Standard input."""

    def lines(self) -> Iterator[Lines]:
        """Yields the lines of standard input."""
        return lines_of_blocks(blocks_of(sys.stdin.fileno()))

    def done(self, mark: Mark) -> None:
        """Does nothing: a restart cannot read standard input again."""

    def stop(self) -> None:
        """Does nothing: another process writes standard input."""


class Command:
    """A shell command. It restarts some seconds after its end, unless the stream ends with it."""

    def __init__(self, words: str, ends: bool) -> None:
        self.words, self.ends, self.stopped = words, ends, False
        self.child: subprocess.Popen[bytes] | None = None

    def lines(self) -> Iterator[Lines]:
        """Yields the lines that the command writes."""
        while True:
            self.child = subprocess.Popen(["sh", "-c", self.words], stdout=subprocess.PIPE, stdin=subprocess.DEVNULL,
                                          start_new_session=True)
            assert self.child.stdout is not None
            yield from lines_of_blocks(blocks_of(self.child.stdout.fileno()))
            self.child.wait()
            if self.ends or self.stopped:
                return
            report("follow", f"`{self.words}` ended with status {self.child.returncode}; it starts again")
            time.sleep(AGAIN)

    def done(self, mark: Mark) -> None:
        """Does nothing: a command does not repeat lines."""

    def stop(self) -> None:
        """Stops the command."""
        self.stopped = True
        if self.child and self.child.poll() is None:
            os.killpg(self.child.pid, 15)


class File:
    """A growing file. If another file replaces it, or it is truncated, it is read again from its start. A restart
    continues after the lines taken."""

    def __init__(self, path: str, state: str, ends: bool) -> None:
        self.path, self.state, self.ends = path, state, ends
        if not os.path.exists(path):
            raise Fault(f"{path} does not exist")
        if os.path.isdir(path):
            raise Fault(f"{path} is a folder, and no log")

    def place(self) -> int:
        """Returns the offset at which an earlier run stopped, if the file is the same; otherwise 0."""
        try:
            with open(self.state, encoding="utf-8") as source:
                told = json.load(source)
            about = os.stat(self.path)
            return int(told["offset"]) if told["inode"] == about.st_ino and told["offset"] <= about.st_size else 0
        except (OSError, ValueError, KeyError, TypeError):
            return 0

    def lines(self) -> Iterator[Lines]:
        """Yields the lines of the file as it grows."""
        offset = self.place()
        while True:
            with open(self.path, "rb") as source:
                inode = os.fstat(source.fileno()).st_ino
                source.seek(offset)
                for lines, _ in lines_of_blocks(self.growing(source, inode)):
                    offset += sum(map(len, lines))
                    yield lines, {"inode": inode, "offset": offset}
            if self.ends:
                return
            offset = 0

    def growing(self, source: BinaryIO, inode: int) -> Iterator[bytes]:
        """Yields the blocks of a file until another file replaces it, or it is truncated."""
        while True:
            block = source.read(BLOCK)
            if block:
                yield block
                continue
            if self.ends:
                return
            time.sleep(PAUSE)
            try:
                about = os.stat(self.path)
            except OSError:
                continue
            if about.st_ino != inode or about.st_size < source.tell():
                yield source.read()
                return

    def done(self, mark: Mark) -> None:
        """Stores the position of the lines taken, for a restart."""
        replace(self.state, json.dumps(mark).encode())

    def stop(self) -> None:
        """Does nothing: reading a file needs no process."""
