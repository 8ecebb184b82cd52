"""Follows the stream for the live page in threads of its own. It replays a log at a speed, feeds the rows to the state,
and asks for preliminary answers."""
import argparse
import threading
import time
from collections.abc import Callable, Iterator

from colregs.errors import Fault, reason, report
from colregs.io.tag_blocks import stamp
from colregs.live.preliminary import Preliminary, View
from colregs.live.state import State
from colregs.model.scenario import Scenario
from colregs.stream.follow import Follow
from colregs.stream.sources import Lines, Mark, Source

LONGEST_WAIT = 5                # the longest pause between two lines of a replayed log, in seconds
EACH = 1.0                      # s after which the position in a replayed log is stored again
EARLY = 0.05                    # s that a line of a replayed log may come early, to come together with those before it


class Paced:
    """A source that replays a log: its lines arrive at the pace of their times, multiplied by `speed`."""

    def __init__(self, source: Source, speed: float) -> None:
        self.source, self.speed = source, speed
        self.due, self.latest = time.monotonic(), 0     # when the line with the latest time was due
        self.stopped = threading.Event()
        # the position after the lines taken, until it is stored; and when a position was stored last
        self.mark: Mark = None
        self.stored = 0.0

    def lines(self) -> Iterator[Lines]:
        """Yields lists of lines, each when it is due."""
        for lines, mark in self.source.lines():
            offset = mark["offset"] - sum(map(len, lines)) if mark else 0
            for part in self.parts(lines):
                offset += sum(map(len, part))
                yield part, {**mark, "offset": offset} if mark else None

    def parts(self, lines: list[bytes]) -> Iterator[list[bytes]]:
        """Yields the lines in parts that are due together, after the wait that each part needs."""
        part: list[bytes] = []
        for line in lines:
            at = stamp(line)
            left = self.left(at) if at is not None and at > self.latest else 0
            if left > EARLY:
                if part:
                    yield part
                part = []
                self.stopped.wait(self.due - time.monotonic())
            part.append(line)
        if part:
            yield part

    def left(self, at: int) -> float:
        """Returns the seconds until a line with a later time is due."""
        passed = (at - self.latest) / self.speed if self.latest else 0
        self.due, self.latest = self.due + min(passed, LONGEST_WAIT), at
        self.due = max(self.due, time.monotonic() - 1)              # it does not catch up after a stop
        return self.due - time.monotonic()

    def done(self, mark: Mark) -> None:
        """Notes that the lines up to a mark are taken.

        The mark is stored once a second, because a fast replay has many marks and each disk write takes time. A restart
        may repeat the lines of that second, which changes no row.
        """
        self.mark = mark
        if time.monotonic() >= self.stored + EACH:
            self.store()

    def store(self) -> None:
        """Stores the mark."""
        if self.mark is not None:
            self.source.done(self.mark)
            self.mark, self.stored = None, time.monotonic()

    def stop(self) -> None:
        """Stops the process or thread that writes the stream."""
        self.stopped.set()
        self.store()
        self.source.stop()


class LiveFollow(Follow):
    """A stream that is followed for the page: it publishes its position after each block of lines."""

    view: View | None = None

    def restart(self) -> None:
        """Continues from the day files, and publishes the position of the stream."""
        super().restart()
        self.look()

    def take(self, lines: list[bytes]) -> None:
        """Takes lines, and publishes the position of the stream."""
        super().take(lines)
        self.look()

    def look(self) -> None:
        """Publishes the position of the stream."""
        if self.clock.time is not None and self.files.out is not None:
            vessels = tuple(sorted(self.scenario.subjects or self.heard))
            self.view = View(self.clock.time, self.files.place(), tuple(self.windows.values()), vessels)

    def say(self, words: str) -> None:
        """Writes one line on standard error."""
        report("live", words)


class Follower:
    """The threads that feed a state: one follows the stream, one asks for answers. When the stream ends, it calls
    `ended` with the failure, or with an empty text."""

    def __init__(self, given: argparse.Namespace, scenario: Scenario, program: str, state: State) -> None:
        self.state, self.stop = state, threading.Event()
        self.follow = LiveFollow(given, scenario, program, state, state)
        self.preliminary = Preliminary(program, scenario, self.follow.numbers, self.follow.files)
        self.threads: list[threading.Thread] = []
        self.faults: list[str] = []

    def start(self, source: Source, ended: Callable[[str], None]) -> None:
        """Begins."""
        self.threads = [threading.Thread(target=self.run, args=(source, ended)), threading.Thread(target=self.ask)]
        for thread in self.threads:
            thread.start()

    def run(self, source: Source, ended: Callable[[str], None]) -> None:
        """Follows the stream to its end."""
        fault = ""
        try:
            with self.follow:
                self.follow.run(source, self.stop)
        except Fault as error:
            fault = str(error)
        except OSError as error:
            fault = f"{error.filename}: {reason(error)}"
        except Exception as error:
            # the page says that nothing follows the stream any more, and the server ends
            fault = f"a defect of colregs-live: {error!r}"
        ended(fault)

    def ask(self) -> None:
        """Asks for answers until the stream ends."""
        self.preliminary.run(lambda: self.follow.view, self.state.answer, self.stop)

    def end(self) -> None:
        """Stops the threads, and waits for them."""
        self.stop.set()
        for thread in self.threads:
            thread.join()
