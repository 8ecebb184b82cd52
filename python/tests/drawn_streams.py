"""Drawn streams: what colregs-follow writes of a drawn log, killed and started again at drawn moments, against one run
of the program.

    drawn_streams.py PROGRAM [--first N] [--count N] [--jobs N] [--seconds N] [--keep DIR]

Each number draws a log as drawn_logs.py does, mostly with shared MMSIs and wrong places, and windows, modes and
moments of kills. Each row and each alarm without a mark must be that of one run, and each of one run that the stream
lacks must lie in the time of a marked row of its pair, or of a line `unsure` or `missing`. Status 0 means that all
numbers passed.
"""
import calendar
import json
import math
import os
import random
import subprocess
import sys
import threading
import time
from collections import Counter
from collections.abc import Iterator
from dataclasses import dataclass, field
from typing import Any

if __name__ == "__main__":
    sys.path[:0] = [
        os.path.dirname(os.path.abspath(__file__)),
        os.path.dirname(os.path.dirname(os.path.abspath(__file__)))
    ]
import drawn_logs  # noqa: E402
from drawn_logs import START, TICK, Drawn, Outcome, Theme  # noqa: E402
from colregs.cli.follow import check_windows, parser  # noqa: E402
from colregs.errors import Fault  # noqa: E402
from colregs.io.lines import stamp_of  # noqa: E402
from colregs.model.scenario import Scenario  # noqa: E402
from colregs.shares.plans import overlap_needed  # noqa: E402
from colregs.stream.follow import Follow, sights_of  # noqa: E402
from colregs.stream.sources import Lines, Mark  # noqa: E402

SHARED = Theme(shared=0.7, wrong_place=0.02, repeated=0.03)
THEMES = (SHARED, Theme(), SHARED, Theme(0.01, 0.02, 0.01, 0.01, 0.01, 0.002, 0, 0.004),
          Theme(shared=0.9, formulas=(0,)), Theme(moored=(3, 4), shared=0.3),
          Theme(types=0.95, ranks=(1,), shared=0, parts=0.02), Theme(formulas=(2, 3), shared=0.2))
AFTER = 400                         # ticks of one run after the log's
MARKS = ("begins_before", "ends_after", "doubt")
Span = tuple[float, float]


@dataclass
class Source:
    """A log that comes in blocks, up to the line before which the tool is killed. A restart goes on after the lines
    that were taken, as of a file."""

    log: list[bytes]
    offset: int = 0
    kill: int | None = None
    pause: float = 0

    def lines(self) -> Iterator[Lines]:
        """Yields the lines in blocks of different lengths."""
        at = self.offset
        while at < len(self.log):
            end = min(at + 1 + at * 37 % 90, len(self.log) if self.kill is None else self.kill)
            if end <= at:
                time.sleep(self.pause)
                raise OSError("killed")
            yield self.log[at:end], {"offset": end}
            at = end

    def done(self, mark: Mark) -> None:
        """Notes that lines are taken."""
        if mark:
            self.offset = mark["offset"]

    def stop(self) -> None:
        """Does nothing."""


@dataclass
class Sink:
    """Keeps the lines that a stream writes."""

    told: list[Any] = field(default_factory=list)

    def write(self, line: str) -> None:
        """Takes a line."""
        self.told.append(json.loads(line))

    def close(self) -> None:
        """Does nothing."""


@dataclass
class Stream:
    """How a number's log is followed: the words of the tool, and the numbers of lines before which it is killed."""

    words: list[str]
    kills: list[int]
    pauses: list[float]


def stream_of(draw: random.Random, made: Drawn, scenario: Scenario, lines: int) -> Stream:
    """Draws windows, modes and kills."""
    every = draw.randrange(45, 140)
    back = max((sight.back for sight in sights_of(scenario).values()), default=0)
    least = overlap_needed(scenario) + back
    overlap = draw.choice((least, least + draw.randrange(60), max(least, every)))
    words = ["--ticks-each", str(every), "--overlap", str(overlap * TICK), "--modes",
             draw.choice(("audit", "watch", "audit,watch")), "--whole"]
    kills = sorted(draw.randrange(lines) for _ in range(draw.choice((0, 0, 1, 3))))
    return Stream(words, kills, [draw.choice((0, 0, 0.2)) for _ in kills])


def followed(stream: Stream, log: list[bytes], scenario: Scenario, program: str, folder: str) -> list[Any]:
    """Returns the lines that the tool writes."""
    sink, source = Sink(), Source(log)
    given = parser().parse_args([scenario.path, "--days", os.path.join(folder, "days"), *stream.words])
    check_windows(given, scenario)
    for kill, pause in [*zip(stream.kills, stream.pauses), (None, 0.0)]:
        source.kill, source.pause = kill, pause
        with Follow(given, scenario, program, sink) as follow:
            try:
                follow.run(source, threading.Event())
            except OSError as error:
                if str(error) != "killed":
                    raise
    return sink.told


def one_run(mode: str, made: Drawn, log: list[bytes], scenario: Scenario, program: str) -> list[str]:
    """Returns the rows of one run, with times instead of steps."""
    words = [program, mode, scenario.path, f"--ticks={made.ticks + AFTER}"]
    done = subprocess.run(words, input=b"".join(log), capture_output=True)
    if done.returncode:
        raise Fault(done.stderr.decode())
    return [absolute(row, START) for row in done.stdout.decode().splitlines()
            if row.startswith(("meeting,", "verdict,", "alarm,"))]


def absolute(row: str, start: int) -> str:
    """Returns a row with times instead of its steps."""
    fields = row.split(",")
    at = place_of(fields)
    fields[at:at + 2] = [str(start + int(step) * TICK) for step in fields[at:at + 2]]
    return ",".join(fields)


def seconds_of(text: str) -> int:
    """Returns the seconds since the Unix epoch of a time as the rows have it."""
    return calendar.timegm(time.strptime(text, "%Y-%m-%dT%H:%M:%SZ"))


def first_of(row: str) -> int:
    """Returns the first second of a row."""
    fields = row.split(",")
    return int(fields[place_of(fields)])


def place_of(fields: list[str]) -> int:
    """Returns which field of a row has its first step."""
    return 5 if fields[0] == "verdict" else 4


class Told:
    """What a stream says: its rows without a mark, and for which vessels and times rows may differ."""

    def __init__(self, told: list[Any], mode: str) -> None:
        self.rows, self.marked, self.unsure = list[str](), dict[tuple[int, int], list[Span]](), list[Any]()
        self.any, ends = set[str](), dict[tuple[int, int], list[int]]()
        for line in told:
            if line["mode"] != mode:
                continue
            if line["kind"] in ("unsure", "missing"):
                self.unsure.append(line)
                continue
            row = absolute(line["row"], line["run"])
            fields = row.split(",")
            at, pair = place_of(fields), (line["subject"], line["other"])
            first, last = int(fields[at]), int(fields[at + 1])
            self.any.add(row)
            if not any(line.get(mark) for mark in MARKS):
                self.rows.append(row)
            else:
                self.marked.setdefault(pair, []).append((first, math.inf if line.get("ends_after") else last))
            if line["kind"] == "meeting" and not line.get("ends_after"):
                ends.setdefault(pair, []).append(last)
        for pair, spans in self.marked.items():
            self.marked[pair] = [(first, last if last < math.inf else min(
                (end for end in ends.get(pair, []) if end > first), default=last)) for first, last in spans]

    def names(self, row: str) -> bool:
        """Returns whether a row of one run that is missing lies in what is marked or unsure."""
        fields = row.split(",")
        at, pair = place_of(fields), (int(fields[1]), int(fields[2]))
        first, last = int(fields[at]), int(fields[at + 1])
        if fields[0] == "alarm":
            last = first
        elif any(begin <= last and first <= end for begin, end in self.marked.get(pair, [])):
            return True
        for line in self.unsure:
            who = {line.get("subject"), line.get("other")} - {None}
            if who <= set(pair) and seconds_of(line["begins"]) < last + TICK and first < seconds_of(line["ends"]):
                return True
        return False


def faults_of(told: list[Any], whole: list[str], mode: str, killed: bool, end: int) -> list[str]:
    """Returns what is wrong in silence. What of one run begins after the last time of the log is of formulas that speak
    of vessels who are not seen; a stream ends before."""
    found = Told(told, mode)
    faults = [f"not of one run: {row}" for row in found.rows if row not in whole]
    missing = set(whole) - (found.any if mode == "watch" else set(found.rows))
    faults += [f"missing: {row}" for row in sorted(missing) if not found.names(row) and first_of(row) <= end]
    return faults + [f"twice: {row}" for row, count in Counter(found.rows).items() if count > 1 and not killed]


def tried(number: int, program: str, folder: str) -> Outcome:
    """Draws the log of a number in a folder, follows it, and compares the rows with those of one run."""
    made = drawn_logs.drawn(number, THEMES)
    draw = random.Random(f"stream {number}")
    path = os.path.join(folder, "scenario.toml")
    with open(path, "w", encoding="utf-8") as out:
        out.write(made.text)
    log = [line + b"\n" for _, line in made.lines]
    while log and stamp_of(log[0]) is None:
        log.pop(0)                                      # a stream drops lines before the first stamp
    scenario = Scenario(path)
    stream = stream_of(draw, made, scenario, len(log))
    told = followed(stream, log, scenario, program, folder)
    end = max(at for line in log if (at := stamp_of(line)) is not None and at < START + (made.ticks + AFTER) * TICK)
    modes, faults, rows = stream.words[stream.words.index("--modes") + 1].split(","), [], 0
    for mode in modes:
        whole = one_run(mode, made, log, scenario, program)
        faults += [f"{mode}: {fault}" for fault in faults_of(told, whole, mode, bool(stream.kills), end)]
    rows = sum(line["kind"] not in ("unsure", "missing") for line in told)
    marked = sum(any(line.get(mark) for mark in MARKS) for line in told)
    unsure = any(line["kind"] in ("unsure", "missing") for line in told)
    word = ("killed, " if stream.kills else "") + ("marked" if marked or unsure else "equal")
    return Outcome(word, faults, rows, marked)


def main() -> int:
    return drawn_logs.run_numbers(__doc__ or "", tried)


if __name__ == "__main__":
    sys.exit(main())
