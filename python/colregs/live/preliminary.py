"""Asks the program for preliminary rows: it runs the scenario and window of the settled rows over the lines so far, as
if the log ended now.

The cost of an answer grows with the length of the window. So only one runs at a time, at most one per tick of the
stream's clock, and a pause of four times its duration follows each. All answers together take at most a fifth of one
processor.
"""
import subprocess
import tempfile
import threading
import time
from collections.abc import Callable, Iterator
from dataclasses import dataclass

from colregs.live.state import Answer
from colregs.model.rows import Lines, Meeting, Verdict, row_of
from colregs.model.scenario import MOST_SUBJECTS, Scenario
from colregs.run.limits import STATUS, next_step
from colregs.stream.day_files import DayFiles, Mark
from colregs.stream.follow import Numbers
from colregs.stream.runs import Window, is_of

PAUSES = 4                      # the pause after an answer, as a multiple of its duration
LEAST_PAUSE = 0.2               # s


@dataclass(frozen=True)
class View:
    """The stream at a moment: its clock, the offset after its lines in the day files, and the open windows."""

    clock: int
    place: Mark
    windows: tuple[Window, ...]
    vessels: tuple[int, ...] = ()       # the vessels that can be subjects


def window_of(view: View, numbers: Numbers) -> Window | None:
    """Returns the open window whose own steps contain the clock's step, because an answer foresees its settled rows;
    otherwise the longest open window."""
    def is_own(window: Window) -> bool:
        return numbers.behind < (view.clock - window.start) // numbers.tick <= numbers.last

    windows = sorted(view.windows, key=lambda window: window.start)
    return next((window for window in windows if is_own(window)), windows[0] if windows else None)


def groups_of(vessels: tuple[int, ...], size: int) -> list[tuple[int, ...]]:
    """Splits vessels into groups of at most `size`."""
    return [vessels[k:k + size] for k in range(0, len(vessels), size)]


@dataclass
class Said:
    """The output of a run of the program, and its exit status."""

    text: str
    status: int
    words: str

    @property
    def is_crowded(self) -> bool:
        """Returns whether more pairs came into contact than one run allows."""
        return self.status == STATUS and "pairs" in self.words


class Preliminary:
    """Asks for answers until it is stopped."""

    def __init__(self, program: str, scenario: Scenario, numbers: Numbers, files: DayFiles) -> None:
        self.program, self.scenario, self.numbers, self.files = program, scenario, numbers, files
        # subjects per group, after a window had more pairs than one run allows
        self.size: int | None = None

    def lines(self, view: View, window: Window) -> Iterator[bytes]:
        """Yields the lines of a window so far."""
        yield window.types
        yield from self.files.blocks(window.place, lambda: view.place)

    def answer(self, view: View) -> Answer | None:
        """Returns the program's answer to the stream so far; None if no window is open."""
        window = window_of(view, self.numbers)
        if window is None:
            return None
        begun, found = time.monotonic(), Answer(window.start, view.clock)
        if self.size is None:
            self.ask_group(view, window, None, found)
        else:
            for group in groups_of(view.vessels, self.size):
                self.ask_group(view, window, group, found)
        found.seconds = time.monotonic() - begun
        return found

    def ask_group(self, view: View, window: Window, group: tuple[int, ...] | None, found: Answer) -> None:
        """Asks about the subjects of a group, or about all pairs. If these are too many, asks about smaller groups."""
        said = self.ask(view, window, group)
        vessels = view.vessels if group is None else group
        if said.is_crowded and len(vessels) > 1:
            self.size = max(1, min(MOST_SUBJECTS, self.size or len(vessels), len(vessels) // 2))
            for smaller in groups_of(vessels, self.size):
                self.ask_group(view, window, smaller, found)
        else:
            self.take(said, group, found)

    def ask(self, view: View, window: Window, group: tuple[int, ...] | None) -> Said:
        """Runs the program over a window so far, with all pairs or those of a group of subjects."""
        with tempfile.NamedTemporaryFile("w", suffix=".toml", encoding="utf-8") as out:
            out.write(self.scenario.with_subjects(list(group) if group else None))
            out.flush()
            command = [self.program, "audit", out.name, f"--start={window.start}", f"--ticks={self.numbers.ticks}"]
            with subprocess.Popen(command, stdin=subprocess.PIPE, stdout=subprocess.PIPE,
                                  stderr=subprocess.PIPE) as child:
                threading.Thread(target=self.feed, args=(child, view, window), daemon=True).start()
                assert child.stdout and child.stderr
                text, words = child.stdout.read().decode(), child.stderr.read().decode("utf-8", "replace").strip()
        return Said(text, child.returncode, words)

    def take(self, said: Said, group: tuple[int, ...] | None, found: Answer) -> None:
        """Handles the result of a run: its failure, or its rows whose subjects are in the group."""
        if said.status == 0:
            self.read(said.text, group, found)
        else:
            found.fault = f"status {said.status}, {said.words}{next_step(said.status, said.words)}"

    def feed(self, child: "subprocess.Popen[bytes]", view: View, window: Window) -> None:
        """Writes the lines of a window to the program."""
        assert child.stdin
        try:
            for block in self.lines(view, window):
                child.stdin.write(block)
            child.stdin.close()
        except (OSError, ValueError):
            pass                                        # the program has ended, and its status says why

    def read(self, text: str, group: tuple[int, ...] | None, found: Answer) -> None:
        """Adds the rows of a run whose subjects are in the group to `found`."""
        tick, own = self.scenario.tick, None if group is None else frozenset(group)
        for line in text.splitlines():
            if not line.startswith(("meeting,", "verdict,", "lines,")):
                continue
            row = row_of(line.split(","))
            if isinstance(row, (Meeting, Verdict)) and not is_of(own, *row.pair, self.scenario.subjects):
                continue
            if isinstance(row, Meeting):
                found.meetings.append(row)
            elif isinstance(row, Verdict) and row.value == "broken":
                found.broken.setdefault((*row.pair, row.rule), []).append(
                    (found.start + row.first * tick, found.start + (row.last + 1) * tick)
                )
            elif isinstance(row, Lines):
                found.counts[row.outcome] = row.count

    def run(self, view: Callable[[], View | None], take: Callable[[Answer], None], stop: threading.Event) -> None:
        """Asks at each tick of the stream's clock, and passes the answers to `take`, until `stop` is set."""
        asked = None
        pause = LEAST_PAUSE
        while not stop.wait(pause):
            now, pause = view(), LEAST_PAUSE
            if now is None or now.clock // self.scenario.tick == asked:
                continue
            asked, begun = now.clock // self.scenario.tick, time.monotonic()
            found = self.answer(now)
            if found:
                take(found)
                pause = max(LEAST_PAUSE, PAUSES * (time.monotonic() - begun))
