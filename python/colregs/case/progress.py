"""A bar on standard error that shows how much of a long work is done; nothing if standard error is no terminal."""
import sys

WIDE = 30


class Bar:
    """A bar of `count` parts, with what is done in words."""

    def __init__(self, words: str, count: int) -> None:
        self.words, self.count, self.done = words, count, 0
        self.shows = sys.stderr.isatty() and count > 1
        self.show()

    def step(self) -> None:
        """Notes that one more part is done."""
        self.done += 1
        self.show()

    def show(self) -> None:
        """Draws the bar over the one before, and ends its line with the last part."""
        if self.shows:
            full = WIDE * self.done // self.count
            end = "\n" if self.done == self.count else ""
            print(f"\r{self.words} [{'#' * full}{'.' * (WIDE - full)}] {self.done} of {self.count}", end=end,
                  file=sys.stderr, flush=True)
