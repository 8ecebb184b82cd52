"""Reports in Python: `report("plan", scenario, log)` gives the rows of a report as typed values.

The report comes from the library libcolregs if it is installed, otherwise from the program by a process; both give the
same bytes (python/tests/test_library.py).
"""
from __future__ import annotations

import ctypes
import functools
import importlib
import os
import subprocess
import tempfile
import typing
from dataclasses import asdict, dataclass, fields
from pathlib import Path

from colregs.errors import Fault, reason
from colregs.model.rows import (Alarm, Lines, Meeting, NoPlan, PlanLeg, Point, Reason, Row, Total, Verdict, Vessel,
                                read_rows)
from colregs.run.program import TOP, found

INTERFACE = 1                       # the interface that include/colregs.h describes
MODES = ("points", "audit", "plan", "drill", "migrate", "recheck", "watch")     # by the library's numbers, from 0
VARIABLE = "COLREGS_LIBRARY"        # names a library to use
INSTALLED = f"libcolregs.so.{INTERFACE}"    # the system's loader finds it
BUILT = os.path.join(TOP, ".cache", "library", "lib", INSTALLED)    # the library of this clone, as .ci/library makes it

DONE, NO_MANOEUVRE, OUT_OF_MEMORY = 0, 1, 8
STATUSES = (0, 1, 2, 3, 7, 8, 9, 10)        # of a run over memory: 4 to 6 are for files and pipes, 20 for arguments

OWN_START, OWN_TICKS, WHY = 2 ** 64 - 1, 0, 1
GREATEST = {"start": 9_999_999_999, "ticks": 20_000, "seed": 999_999}

Content = bytes | str | Path        # bytes, a text, or the file that has them
RowType = typing.TypeVar("RowType", bound=Row)

TABLES: dict[str, type[Row]] = {
    "points": Point,
    "meetings": Meeting,
    "verdicts": Verdict,
    "alarms": Alarm,
    "vessels": Vessel,
    "totals": Total,
    "plan": PlanLeg,
    "reasons": Reason,
}


class Numbers(ctypes.Structure):
    """The options of a call, as C lays them out."""

    _fields_ = [
        ("start", ctypes.c_uint64),
        ("ticks", ctypes.c_uint32),
        ("seed", ctypes.c_uint32),
        ("flags", ctypes.c_uint32),
    ]


@dataclass(frozen=True)
class Options:
    """The options of a report: the start of the window (s since 1970) and its length (ticks) instead of the scenario's,
    the seed of a drill, and whether a plan says why none is left."""

    start: int | None = None
    ticks: int | None = None
    seed: int = 1
    why: bool = False

    def __post_init__(self) -> None:
        for name, least in (("start", 0), ("ticks", 1), ("seed", 0)):
            value = getattr(self, name)
            if value is not None and not least <= value <= GREATEST[name]:
                raise ValueError(f"{name} is {value}, and has to be {least} to {GREATEST[name]}")

    def numbers(self) -> Numbers:
        """Returns the options for the library."""
        start = OWN_START if self.start is None else self.start
        ticks = OWN_TICKS if self.ticks is None else self.ticks
        return Numbers(start, ticks, self.seed, WHY if self.why else 0)

    def arguments(self) -> list[str]:
        """Returns the options for the program."""
        values = ("start", self.start), ("ticks", self.ticks), ("seed", self.seed)
        given = [f"--{name}={value}" for name, value in values if value is not None]
        return given + (["--why"] if self.why else [])


@dataclass(frozen=True, slots=True)
class Rows:
    """All rows of a report: those with a type of their own in their order, the number of lines by outcome, and the
    number of plans if every plan fails."""

    typed: tuple[Row, ...]
    lines: dict[str, int]
    failing_plans: int | None


@dataclass(frozen=True)
class Report:
    """A report: the mode, the exit status of the program, the bytes, the line of standard error, and whether the
    library or the program gave it."""

    mode: str
    status: int
    text: bytes
    fault: str
    source: str

    @functools.cached_property
    def rows(self) -> Rows:
        """All rows; a Fault if the text is no rows, as that of a migration."""
        if self.mode == "migrate":
            raise Fault("a migration gives a scenario and no rows: read `text`")
        rows = read_rows(self.text.decode("utf-8", "replace"))
        return Rows(
            tuple(row for row in rows if not isinstance(row, (Lines, NoPlan))),
            {row.outcome: row.count for row in rows if isinstance(row, Lines)},
            next((row.plans for row in rows if isinstance(row, NoPlan)), None),
        )

    def of_type(self, kind: type[RowType]) -> tuple[RowType, ...]:
        """Returns the rows of a type, in the report's order."""
        return tuple(row for row in self.rows.typed if isinstance(row, kind))

    @property
    def points(self) -> tuple[Point, ...]:
        """The accepted reports."""
        return self.of_type(Point)

    @property
    def meetings(self) -> tuple[Meeting, ...]:
        """The encounters."""
        return self.of_type(Meeting)

    @property
    def verdicts(self) -> tuple[Verdict, ...]:
        """The stretches that are broken or open."""
        return self.of_type(Verdict)

    @property
    def alarms(self) -> tuple[Alarm, ...]:
        """The alarms of `watch`."""
        return self.of_type(Alarm)

    @property
    def vessels(self) -> tuple[Vessel, ...]:
        """The vessels."""
        return self.of_type(Vessel)

    @property
    def totals(self) -> tuple[Total, ...]:
        """The totals of the rules."""
        return self.of_type(Total)

    @property
    def plan(self) -> tuple[PlanLeg, ...]:
        """The legs of the plan; none if every plan fails (status 1)."""
        return self.of_type(PlanLeg)

    @property
    def reasons(self) -> tuple[Reason, ...]:
        """Why every plan fails, if `why` was asked."""
        return self.of_type(Reason)

    @property
    def lines(self) -> dict[str, int]:
        """The number of lines of the log by outcome."""
        return self.rows.lines

    @property
    def failing_plans(self) -> int | None:
        """The number of plans if every plan fails, otherwise None."""
        return self.rows.failing_plans

    def to_pandas(self) -> dict[str, typing.Any]:
        """Returns a data frame for each type of row, by the property's name; a Fault if pandas is not installed."""
        try:
            pandas: typing.Any = importlib.import_module("pandas")
        except ImportError:
            raise Fault("to_pandas needs the package pandas; install python3-pandas") from None
        return {
            name: pandas.DataFrame(
                [asdict(row) for row in self.rows.typed if isinstance(row, kind)],
                columns=[field.name for field in fields(kind)],
            )
            for name, kind in TABLES.items()
        }


def content_of(given: Content) -> bytes:
    """Returns the bytes that are given, of a text those in UTF-8; a Fault if a file cannot be read."""
    if isinstance(given, Path):
        try:
            return given.read_bytes()
        except OSError as error:
            raise Fault(f"{given}: {reason(error)}") from None
    return given.encode() if isinstance(given, str) else given


def open_library(path: str) -> ctypes.CDLL:
    """Loads a library and checks its interface; an OSError if it cannot be loaded."""
    library = ctypes.CDLL(path)
    try:
        library.colregs_interface.restype = ctypes.c_uint32
        interface = int(library.colregs_interface())
        call = library.colregs_report
    except AttributeError:
        raise Fault(f"{path} is not the library colregs") from None
    if interface != INTERFACE:
        raise Fault(f"{path} has interface {interface}, and this package needs {INTERFACE}; "
                    "install the library and the package of one release")
    text, size = ctypes.c_char_p, ctypes.c_size_t
    call.restype = ctypes.c_uint8
    call.argtypes = [
        ctypes.c_uint32, text, size, text, size, text, size, ctypes.POINTER(Numbers),
        ctypes.c_void_p, size, ctypes.POINTER(size), ctypes.c_void_p, size, ctypes.POINTER(size),
    ]
    return library


@functools.cache
def library_at(named: str | None) -> ctypes.CDLL | None:
    """Returns the library that is named, and otherwise that of this clone or of the system, if there is one."""
    if named:
        try:
            return open_library(named)
        except OSError as error:
            raise Fault(f"{VARIABLE} names {named}, which cannot be loaded: {error}") from None
    for path in (BUILT, INSTALLED):
        try:
            return open_library(path)
        except OSError:
            continue
    return None


def line_of(written: bytes) -> str:
    """Returns the line of a fault as text, without its end."""
    return written.decode("utf-8", "replace").rstrip("\n")


def by_library(
    library: ctypes.CDLL, mode: str, scenario: bytes, log: bytes, rows: bytes, options: Options
) -> Report:
    """Returns the report that the library gives."""
    numbers, room, line_room = options.numbers(), 1 << 16, 256
    while True:
        out, line = ctypes.create_string_buffer(room), ctypes.create_string_buffer(line_room)
        length, line_length = ctypes.c_size_t(), ctypes.c_size_t()
        status = library.colregs_report(
            MODES.index(mode), scenario, len(scenario), log, len(log), rows, len(rows), ctypes.byref(numbers),
            out, room, ctypes.byref(length), line, line_room, ctypes.byref(line_length),
        )
        if length.value <= room and line_length.value <= line_room:
            text, fault = ctypes.string_at(out, length.value), ctypes.string_at(line, line_length.value)
            return Report(mode, status, text, line_of(fault), "library")
        room, line_room = max(room, length.value), max(line_room, line_length.value)


def by_program(program: str, mode: str, scenario: bytes, log: bytes, rows: bytes, options: Options) -> Report:
    """Returns the report that the program gives in a process; a Fault if it meets a failing file or pipe."""
    with tempfile.TemporaryDirectory(prefix="colregs-") as folder:
        names = [os.path.join(folder, name) for name in ("scenario.toml", "why.csv")]
        try:
            for name, content in zip(names, (scenario, rows)):
                with open(name, "wb") as out:
                    out.write(content)
            command = [program, mode, names[0], "--rows", names[1], *options.arguments()]
            done = subprocess.run(command, input=log, capture_output=True)
        except OSError as error:
            raise Fault(f"{error.filename or program}: {reason(error)}") from None
    line = line_of(done.stderr)
    if done.returncode not in STATUSES:
        raise Fault(f"{program} ended with status {done.returncode}: {line}")
    return Report(mode, done.returncode, done.stdout, line, "program")


def report(
    mode: str,
    scenario: Content,
    log: Content,
    *,
    rows: Content = b"",
    start: int | None = None,
    ticks: int | None = None,
    seed: int = 1,
    why: bool = False,
    program: str | None = None,
    whole: bool = True,
) -> Report:
    """Returns the report of a mode on a log, from the library, or from the program if there is no library or a program
    is given.

    A scenario and a log are bytes, a text, or a `Path` of a file. `rows` are the rows `why` that `recheck` checks.
    If no whole report comes (status 2 or more), it raises a Fault with the program's line; with `whole=False` it
    returns the report as far as it was settled, with its status. It raises ValueError if a mode or an option is out of
    its range, and MemoryError if memory runs out.
    """
    if mode not in MODES:
        raise ValueError(f"mode is {mode!r}, and has to be one of {', '.join(MODES)}")
    options = Options(start, ticks, seed, why)
    contents = content_of(scenario), content_of(log), content_of(rows)
    library = None if program else library_at(os.environ.get(VARIABLE))
    if library:
        made = by_library(library, mode, *contents, options)
    else:
        made = by_program(found(program), mode, *contents, options)
    if made.status == OUT_OF_MEMORY:
        raise MemoryError(made.fault)
    if whole and made.status > NO_MANOEUVRE:
        raise Fault(f"no report (status {made.status}): {made.fault}; docs/ROWS.md says what to do at each status")
    return made
