"""A run of the program over a window of a stream: it gets the lines of the day files as they grow, and returns its rows
as they arrive."""
import os
import select
import subprocess
import tempfile
from collections.abc import Collection

from colregs.stream.day_files import BLOCK, DayFiles, Mark

Rows = tuple[list[str], str | None]             # new rows, and after the end what the program wrote on standard error
KINDS = "meeting,", "verdict,", "alarm,", "point,"


class Window:
    """A window of a stream: its start, the place of its first line in the day files, and lines with ship types to put
    before it."""

    def __init__(self, start: int, place: Mark, types: bytes = b"") -> None:
        self.start, self.place, self.types, self.grouped = start, place, types, False
        self.heard: set[int] = set()                    # the vessels in a group

    def add_groups(self, vessels: Collection[int]) -> None:
        """Adds vessels whose groups run from now on."""
        self.grouped = True
        self.heard |= set(vessels)


def is_of(group: Collection[int] | None, subject: int, other: int, own: Collection[int]) -> bool:
    """Returns whether the run of a group reports a row: its subject is in the group; or its subject is not among the
    scenario's subjects `own`, and the other vessel is in the group."""
    return group is None or subject in group or bool(own) and subject not in own and other in group


class WindowRun:
    """A run over a window, with all pairs or the pairs of a group of subjects."""

    def __init__(self, window: Window, mode: str, group: frozenset[int] | None) -> None:
        self.window, self.mode, self.group = window, mode, group
        self.counts: dict[str, int] = {}                # lines by outcome, after the run has ended
        self.status: int | None = None                  # the program's exit status, after the run has ended
        self.limit: Mark | None = None                  # the end of its log
        self.closed: int | None = None                  # the clock at that end
        self.cut, self.long = False, False
        self.behind = False                             # whether more than one block of lines waits

    @property
    def is_busy(self) -> bool:
        """Returns whether this run has lines or rows that have waited since it last worked."""
        return False

    def work(self) -> Rows:
        """Takes new lines without waiting; returns the rows that have arrived, and after the end why it ended."""
        raise NotImplementedError

    def waits(self) -> list[tuple[int, int]]:
        """Returns the pipes on which this run waits, each with its events for `select.poll`."""
        return []

    def key(self) -> tuple[int, str, frozenset[int] | None]:
        """Returns the key of this run: its window's start, its mode and its group."""
        return self.window.start, self.mode, self.group

    def end_at(self, place: Mark, clock: int, cut: bool) -> None:
        """Ends the log of this run at a place and the clock there; `cut` is true if the stream continues later."""
        self.limit, self.closed, self.cut = place, clock, cut

    def note_long(self) -> bool:
        """Notes that a row of this run is longer than the overlap; returns whether this is the first."""
        first, self.long = not self.long, True
        return first

    def is_mine(self, subject: int, other: int, own: Collection[int]) -> bool:
        """Returns whether this run reports a row."""
        return is_of(self.group, subject, other, own)

    def stop(self) -> None:
        """Ends the run at once."""
        raise NotImplementedError


class StreamRun(WindowRun):
    """The program in one mode over one window. Its pipes never block, so that one thread serves all runs: with a thread
    for each, a busy machine does little but switch between them."""

    def __init__(self, words: list[str], window: Window, mode: str, group: frozenset[int] | None,
                 files: DayFiles) -> None:
        super().__init__(window, mode, group)
        self.said = tempfile.TemporaryFile()            # its standard error
        # in its own process group: a signal of the terminal ends the tool, which then ends its runs in order
        self.child: subprocess.Popen[bytes] = subprocess.Popen(words, stdin=subprocess.PIPE, stdout=subprocess.PIPE,
                                                               stderr=self.said, process_group=0)
        assert self.child.stdin is not None and self.child.stdout is not None
        self.stdin, self.stdout = self.child.stdin, self.child.stdout
        for pipe in (self.stdin, self.stdout):
            os.set_blocking(pipe.fileno(), False)
        self.blocks = files.blocks(window.place, lambda: self.limit)
        self.unsent, self.part = window.types, b""      # lines that the program has not taken, and the start of a row
        self.has_more = False

    @property
    def is_busy(self) -> bool:
        """Returns whether lines or rows wait."""
        return self.behind or self.has_more or bool(self.unsent)

    def waits(self) -> list[tuple[int, int]]:
        """Returns the program's output, and its input if lines wait."""
        found = [(self.stdout.fileno(), select.POLLIN)]
        if self.behind or self.unsent:
            found.append((self.stdin.fileno(), select.POLLOUT))
        return found

    def work(self) -> Rows:
        """Writes new lines to the program, and returns its new rows."""
        try:
            self.feed()
        except BlockingIOError:
            pass                                        # it still has lines to read
        except BrokenPipeError:
            self.unsent, self.behind = b"", False       # it has ended, which `read` reports
            self.stdin.close()
        return self.read()

    def feed(self) -> None:
        """Writes new lines of the day files to the program, as many as it takes at once."""
        while not self.stdin.closed:
            if not self.unsent:
                block = next(self.blocks, None)
                if block is None:
                    self.stdin.close()
                self.unsent, self.behind = block or b"", len(block or b"") >= BLOCK
            if not self.unsent:
                return
            self.unsent = self.unsent[os.write(self.stdin.fileno(), self.unsent):]

    def read(self) -> Rows:
        """Returns the rows that have arrived, and after the end what the program wrote on standard error."""
        try:
            block = os.read(self.stdout.fileno(), BLOCK)
        except BlockingIOError:
            self.has_more = False
            return [], None
        self.has_more = len(block) == BLOCK
        if not block and self.child.poll() is not None:
            return [], self.end()
        # of a program that was killed while it wrote a row, this row is left out
        *lines, self.part = (self.part + block).split(b"\n")
        rows = [line.decode("utf-8", "replace") for line in lines]
        for row in rows:
            if row.startswith("lines,"):
                _, outcome, count, _ = row.split(",", 3)
                self.counts[outcome] = int(count)
        return [row for row in rows if row.startswith(KINDS)], None

    def end(self) -> str:
        """Ends a run whose program has ended; returns what it wrote on standard error."""
        self.status, self.unsent, self.behind = self.child.returncode, b"", False
        self.said.seek(0)
        words = self.said.read().decode("utf-8", "replace").strip()
        for file in (self.stdin, self.stdout, self.said):
            file.close()
        return words

    def stop(self) -> None:
        """Kills the program."""
        if self.child.poll() is None:
            self.child.kill()
        self.child.wait()
