"""Numbered changes of a state. The last ones are stored, so that a page that lost its connection gets what it
missed."""
import collections

MOST_CHANGES, MOST_BYTES = 1200, 8 << 20        # the limits of what is stored: two minutes of changes, and 8 MiB


class Changes:
    """The last changes as JSON texts, numbered from 1. A snapshot has the number of the last change in it."""

    def __init__(self) -> None:
        self.number, self.bytes = 0, 0
        self.texts: collections.deque[str] = collections.deque()

    def add(self, text: str) -> None:
        """Stores the next change."""
        self.number += 1
        self.texts.append(text)
        self.bytes += len(text)
        while len(self.texts) > MOST_CHANGES or self.bytes > MOST_BYTES and len(self.texts) > 1:
            self.bytes -= len(self.texts.popleft())

    def after(self, number: int, most: int = MOST_CHANGES) -> list[str] | None:
        """Returns the changes after a number. Returns None if one of them is no longer stored, if they are more than
        `most`, or if this server did not give the number."""
        count = self.number - number
        if not 0 <= count <= min(most, len(self.texts)):
            return None
        return list(self.texts)[len(self.texts) - count:]
