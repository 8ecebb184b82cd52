"""Whether a window of a stream accepts the same reports as the one before it, by what both accept about the beginning
of the later one.

If two vessels share an MMSI, this shows it even where the rows of the two windows are alike. colregs-many compares its
windows so, too (colregs/shares/windows.py).
"""
from collections.abc import Iterable

from colregs.model.scenario import Scenario
from colregs.shares.heads import STRADDLE, agreed_from
from colregs.shares.plans import HEAD
from colregs.shares.results import Check

Windows = tuple[int, int]               # the start of a window, and that of the one whose run reports


class Agreements:
    """Takes the accepted reports of windows that start every `length` seconds and last `lasts` seconds."""

    def __init__(self, scenario: Scenario, length: int, lasts: int, warm: int) -> None:
        self.scenario, self.length, self.lasts, self.warm = scenario, length, lasts, warm
        self.silence = max(scenario.gap, STRADDLE)
        self.found: dict[Windows, dict[int, list[Check]]] = {}
        self.done = set[Windows]()
        self.begun, self.pending = set[int](), set[int]()       # the starts of windows, and of those not compared yet

    def begin(self, start: int) -> None:
        """Begins the reports of a window, or begins them again."""
        for head in (start, start + self.length):
            self.found[head, start] = {}
            self.done.discard((head, start))
        if start not in self.begun and start - self.length in self.begun:
            self.pending.add(start)
        self.begun.add(start)

    def bounds(self, start: int) -> tuple[int, int]:
        """Returns the first and the last second about a window's beginning."""
        begin = start - self.scenario.gap
        return begin, min(begin + 2 * self.silence + HEAD, start - self.length + self.lasts + self.scenario.gap)

    def take(self, start: int, rows: Iterable[str]) -> list[int]:
        """Takes rows `point` of a window; returns the starts of the windows that can be compared now."""
        heads = [(*self.bounds(head), self.found[head, start], head) for head in (start, start + self.length)
                 if (head, start) not in self.done]
        last = None
        for row in rows:
            _, mmsi, second, rest = row.split(",", 3)
            last = at = int(second)
            for first, end, found, _ in heads:
                if first <= at <= end:
                    found.setdefault(int(mmsi), []).append((at, rest))
        over = [head for _, end, _, head in heads if last is not None and last > end + self.scenario.slack]
        return self.are_done(start, over)

    def ended(self, start: int) -> list[int]:
        """Ends the reports of a window; returns the starts of the windows that can be compared now."""
        return self.are_done(start, [start, start + self.length])

    def are_done(self, start: int, heads: list[int]) -> list[int]:
        """Notes that a run has all reports about the beginnings of windows."""
        self.done |= {(head, start) for head in heads}
        return [head for head in heads
                if head in self.pending and {(head, head), (head, head - self.length)} <= self.done]

    def is_done(self, start: int) -> bool:
        """Returns whether the reports of a window are no longer needed."""
        return {(start, start), (start + self.length, start)} <= self.done

    def compared(self, start: int, lost: set[int]) -> dict[int, int | None]:
        """Returns the vessels whose accepted reports are others at the window's beginning than in the window before it,
        each with the time from which they are the same; None if that is unknown. The window before may accept other
        reports of those `lost`."""
        self.pending.discard(start)
        earlier, later = (self.found.pop((start, of), {}) for of in (start - self.length, start))
        (begin, end), others = self.bounds(start), dict[int, int | None]()
        for mmsi in {*earlier, *later, *lost}:
            checks = [[check for check in found.get(mmsi, []) if begin <= check[0] <= end]
                      for found in (earlier, later)]
            at = agreed_from(checks[0], checks[1], begin, end, self.scenario.gap, mmsi in lost)
            # who was not heard before the first report that both accept is not seen before either
            is_late = at is None or at > start + self.warm * self.scenario.tick
            if is_late and (at is None or any(one and one[0][0] < at for one in checks)):
                others[mmsi] = at
        return others

    def forget(self, before: int) -> None:
        """Forgets the windows that began before a time."""
        self.found = {windows: found for windows, found in self.found.items() if windows[0] >= before}
        self.done = {windows for windows in self.done if windows[0] >= before}
        self.begun = {start for start in self.begun if start >= before}
