"""The rows of the program's reports as typed values (docs/ROWS.md): one class per kind, and the one reader of them.

Times are in seconds since 1970, lengths in tenths of a millimetre, speeds in tenths of a knot, courses in tenths of a
degree, steps and ticks counted from the start of the window.
"""
import csv
import io
from collections.abc import Callable, Sequence
from dataclasses import dataclass

from colregs.errors import Fault

FIELDS = 7              # fields of every row
MARKED, MARKS = ("meeting", "verdict"), ("cut", "doubt")        # rows of a joined report may have a further field
OUTCOMES = 21           # a whole report counts the lines of its log by this many outcomes
METRE = 10000           # units of a length in a row


@dataclass(frozen=True, slots=True)
class Point:
    """An accepted report: its place east and north of the reference, and speed and course if it has them."""

    mmsi: int
    time: int
    east: int
    north: int
    speed: int | None
    course: int | None


@dataclass(frozen=True, slots=True)
class OfPair:
    """A row of an ordered pair of vessels: `subject` is the one that a rule binds."""

    subject: int
    other: int

    @property
    def pair(self) -> tuple[int, int]:
        """Returns the MMSIs of subject and other."""
        return self.subject, self.other

    @property
    def both(self) -> tuple[int, int]:
        """Returns the two MMSIs, the lower first."""
        return min(self.pair), max(self.pair)


@dataclass(frozen=True, slots=True)
class Meeting(OfPair):
    """An encounter: its kind for the subject, its first and last step, and the least distance."""

    encounter: str
    first: int
    last: int
    least: int

    @property
    def metres(self) -> float:
        """Returns the least distance in metres."""
        return self.least / METRE


@dataclass(frozen=True, slots=True)
class Verdict(OfPair):
    """A stretch of steps at which a rule is `broken`, or stays `open` because the log ends before it is decided."""

    rule: str
    value: str
    first: int
    last: int


@dataclass(frozen=True, slots=True)
class Alarm(OfPair):
    """An alarm of `watch`: the step that breaks a rule, and the step that decides it."""

    rule: str
    step: int
    decided: int


@dataclass(frozen=True, slots=True)
class Vessel:
    """A vessel: her name, ITU-R M.1371 type and length in metres (empty or 0 if no message gives it), her accepted
    reports and the legs between them, both None in a joined report."""

    mmsi: int
    name: str
    ship_type: int
    length: int
    reports: int | None
    legs: int | None


@dataclass(frozen=True, slots=True)
class Total:
    """How many positions of a rule over all traces are Yes, No and Open, and how many stretches are broken."""

    rule: str
    positions: int
    yes: int
    no: int
    open: int
    broken: int


@dataclass(frozen=True, slots=True)
class PlanLeg:
    """A leg of the plan: the plan's number, the leg's, the ordered course and speed, and the first and last tick."""

    number: int
    leg: int
    course: int
    speed: int
    first: int
    last: int


@dataclass(frozen=True, slots=True)
class NoPlan:
    """Every plan fails, and they are this many."""

    plans: int


@dataclass(frozen=True, slots=True)
class Reason:
    """Why plans with these first choices fail: a target, `domain` or the rule that they newly break, the step and, for
    a domain, the instant numerator / denominator of it."""

    choices: tuple[int, ...]
    target: int
    reason: str
    step: int
    numerator: int | None
    denominator: int | None


@dataclass(frozen=True, slots=True)
class Lines:
    """How many lines of the log have an outcome."""

    outcome: str
    count: int


Stretch = Meeting | Verdict
Row = Point | Meeting | Verdict | Alarm | Vessel | Total | PlanLeg | NoPlan | Reason | Lines


def optional(field: str) -> int | None:
    """Returns the number of a field, or None if the field is empty."""
    return int(field) if field else None


def choices_of(field: str) -> tuple[int, ...]:
    """Returns the choices that a row `why` joins by dots."""
    return tuple(map(int, field.split("."))) if field else ()


READERS: dict[str, Callable[[Sequence[str]], Row]] = {
    "point": lambda f: Point(int(f[1]), int(f[2]), int(f[3]), int(f[4]), optional(f[5]), optional(f[6])),
    "meeting": lambda f: Meeting(int(f[1]), int(f[2]), f[3], *map(int, f[4:7])),
    "verdict": lambda f: Verdict(int(f[1]), int(f[2]), f[3], f[4], int(f[5]), int(f[6])),
    "alarm": lambda f: Alarm(int(f[1]), int(f[2]), f[3], int(f[4]), int(f[5])),
    "vessel": lambda f: Vessel(int(f[1]), f[2], int(f[3]), int(f[4]), optional(f[5]), optional(f[6])),
    "total": lambda f: Total(f[1], *map(int, f[2:7])),
    "plan": lambda f: PlanLeg(*map(int, f[1:7])),
    "none": lambda f: NoPlan(int(f[1])),
    "why": lambda f: Reason(choices_of(f[1]), int(f[2]), f[3], int(f[4]), optional(f[5]), optional(f[6])),
    "lines": lambda f: Lines(f[1], int(f[2])),
}


def row_of(fields: Sequence[str]) -> Row:
    """Returns the row of seven fields; raises ValueError if they are no row of a report."""
    if len(fields) == FIELDS + 1 and fields[0] in MARKED and fields[FIELDS] in MARKS:
        fields = fields[:FIELDS]
    if len(fields) != FIELDS:
        raise ValueError(f"a row has {FIELDS} fields, and this has {len(fields)}")
    if fields[0] not in READERS:
        raise ValueError(f"`{fields[0]}` is no kind of row; is the package older than the program?")
    return READERS[fields[0]](fields)


def read_rows(text: str) -> list[Row]:
    """Returns the rows of a report in their order; raises a Fault with the number of the line that is no row."""
    rows: list[Row] = []
    try:
        for fields in csv.reader(io.StringIO(text)):
            rows.append(row_of(fields))
    except (ValueError, csv.Error) as error:
        raise Fault(f"the report, line {len(rows) + 1}: {error}") from None
    return rows
