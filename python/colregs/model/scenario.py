"""A scenario: its text, and the numbers that shares and streams need of it."""
import re
import tomllib
from typing import Any

from colregs.errors import Fault
from colregs.io.files import read_text
from colregs.model.formulas import sight_of

MOST_SUBJECTS, MOST_TICKS, MOST_BYTES = 64, 20000, 1 << 30           # docs/SCENARIO.md
SUBJECTS = re.compile(r"(?ms)^\s*subjects\s*=\s*\[.*?\][^\n]*\n?")
BOUNDS = re.compile(r"\[\s*\d+\s*,\s*(\d+)\s*\]")


def read_values(path: str) -> dict[str, Any]:
    """Returns the values of a scenario's file."""
    return values_of(path, read_text(path))


def values_of(path: str, text: str) -> dict[str, Any]:
    """Returns the values of a scenario's text; `path` is its name in messages."""
    try:
        return tomllib.loads(text)
    except tomllib.TOMLDecodeError as error:
        raise Fault(f"{path}: not TOML: {error}") from None


def seconds_ahead(text: str) -> int:
    """Returns how far a formula looks ahead; of a text that is none, which the program refuses, its bounds together."""
    try:
        return sight_of(text).ahead
    except Fault:
        return sum(map(int, BOUNDS.findall(text)))


class Scenario:
    """A scenario's text with the numbers that shares need. Where the program would refuse it, it refuses it itself."""

    def __init__(self, path: str) -> None:
        self.path, self.text = path, read_text(path)
        self.values = values_of(path, self.text)
        try:
            window, log, rules = (self.values[table] for table in ("window", "log", "rules"))
            self.start, self.tick, self.ticks = (int(window[key]) for key in ("start", "tick", "ticks"))
            self.gap, self.slack, self.watch = int(log["gap"]), int(log["slack"]), int(self.values["detect"]["watch"])
            self.clear = int(self.values["detect"]["clear"])
            self.most_bytes = int(log.get("max_bytes", MOST_BYTES))
            # r8b, r14a, r16 and r17b look ahead, by these times (docs/RULES.md)
            texts = [str(table["text"]) for table in self.values.get("formula", [])]
            ahead = [int(rules[key]) for key in ("t8", "ta", "tl")] + [seconds_ahead(text) for text in texts]
            self.reach = -(-max(ahead) // self.tick)
        except (KeyError, TypeError, ValueError, ZeroDivisionError) as error:
            raise Fault(f"{path}: a number of window, log, detect or rules is missing or is none: {error}") from None
        self.subjects: list[int] = self.values.get("subjects", [])
        self.ranks: bool = rules.get("ranks") == 1
        self.formulas = {str(table.get("name")): str(table["text"]) for table in self.values.get("formula", [])}

    def with_subjects(self, subjects: list[int] | None) -> str:
        """Returns the text with these subjects instead of its own, and nothing else changed."""
        if subjects is None:
            return self.text
        head, bracket, rest = self.text.partition("\n[")
        head = SUBJECTS.sub("", head, count=1) if self.subjects else head
        text = f"subjects = {subjects}\n{head}{bracket}{rest}"
        if values_of(self.path, text) != {**self.values, "subjects": subjects}:
            raise Fault(f"{self.path}: its subjects cannot be replaced: put `subjects = [..]` on lines of its own "
                        "before the first table")
        return text

    def steps(self, seconds: int) -> int:
        """Returns the fewest ticks that last so long."""
        return -(-seconds // self.tick)

    def settled(self, ticks: int) -> int:
        """Returns the last step whose rows neither the end of a window of this many ticks nor a later line can
        change."""
        return ticks - self.reach - 2

    def delay(self) -> int:
        """Returns how many seconds of the log's clock a row comes at most after its last step begins
        (docs/AUDIT.md)."""
        return (self.reach + 2) * self.tick + self.gap + self.slack
