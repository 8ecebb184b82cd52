"""Shares of a long audit: jobs as JSON lines, each a window, optionally with a group of subjects and a tile; and the
folder of their results."""
import hashlib
import json
import os
import re
from collections.abc import Iterable, Iterator
from dataclasses import dataclass, field
from typing import Any

from colregs.errors import Fault, reason
from colregs.io.files import read_bytes, replace, sum_of
from colregs.model.scenario import MOST_SUBJECTS, MOST_TICKS, Scenario
from colregs.run.program import programs_of
from colregs.shares.cuts import Reads
from colregs.shares.cutter import Cut
from colregs.shares.reads import COPY, LINES, SEEK, SKIP

KEYS = {
    "files": list, "scenario": str, "start": int, "ticks": int, "subjects": list, "tile": list, "margin": int,
    "vessels": list, "sums": list, "whole": list, "before": list, "heads": list, "tails": list, "types": dict,
    "unsure": list, "reads": list
}
NEEDED = ("files", "scenario", "start", "ticks")
CHECKSUM = b"sum,"                  # start of the last line of a result: the SHA-256 of all lines before it
NEED = re.compile(rb"^need,(\d+),(\d+)$", re.M)
TAIL = 200                          # bytes at the end of a result, enough for its need and its checksum


@dataclass(frozen=True)
class Need:
    """The resources that a job needed: elapsed seconds, and the kilobytes of its largest process."""

    seconds: int
    kilobytes: int

    def line(self) -> bytes:
        """Returns the need as a line of a result."""
        return b"need,%d,%d\n" % (self.seconds, self.kilobytes)


@dataclass
class Job:
    """One share, with the keys of its line. `plan` adds the second half of the keys, which tie a window to the whole
    audit.

    `sums` are the SHA-256 of the files. `whole` has the first and the last second of the whole audit's window of lines.
    `before` has the last stamp before the files and the greatest that counts. For the join, a run stores the accepted
    reports in the spans of time `heads`, about the starts of windows, and `tails`, about their ends. `types` are ship
    types that were reported earlier, and `unsure` the vessels whose type is uncertain. `reads` says what to do with the
    bytes of each file.
    """

    files: list[str]
    scenario: str
    start: int
    ticks: int
    subjects: list[int] | None = None
    tile: list[float | None] | None = None
    margin: int = 0
    vessels: list[int] | None = None
    sums: list[str] | None = None
    whole: list[int] | None = None
    before: list[int | None] = field(default_factory=lambda: [None, None])
    heads: list[list[int]] = field(default_factory=list)
    tails: list[list[int]] = field(default_factory=list)
    types: dict[str, int] = field(default_factory=dict)
    unsure: list[int] = field(default_factory=list)
    reads: Reads | None = None

    def __post_init__(self) -> None:
        wrong = [name for name, good in self.forms() if not good]
        if wrong:
            raise ValueError(f"`{wrong[0]}` has a value of the wrong type")
        if not self.files:
            raise ValueError("`files` is empty")
        if not (0 < self.ticks <= MOST_TICKS and self.start >= 0):
            raise ValueError(f"a window has a start, and 1 to {MOST_TICKS} ticks")
        if self.subjects is not None and not 0 < len(self.subjects) <= MOST_SUBJECTS:
            raise ValueError(f"a group has 1 to {MOST_SUBJECTS} subjects")
        if self.tile is not None and (len(self.tile) != 4 or self.vessels is None):
            raise ValueError("a tile has four edges, and the list of its vessels")
        if self.sums is not None and len(self.sums) != len(self.files):
            raise ValueError("each file has a sum")
        if self.reads is not None and len(self.reads) != len(self.files):
            raise ValueError("each file has its reads")
        if len(self.before) != 2 or self.whole is not None and len(self.whole) != 2:
            raise ValueError("`before` and `whole` are two numbers each")

    def forms(self) -> Iterator[tuple[str, bool]]:
        """Yields the names of the keys with lists, and whether all their items have the right type."""
        yield "files", all(isinstance(name, str) for name in self.files)
        yield "sums", all(isinstance(sum_, str) for sum_ in self.sums or [])
        for name, values in (("subjects", self.subjects), ("vessels", self.vessels), ("whole", self.whole),
                             ("unsure", self.unsure)):
            yield name, are_numbers(values or [])
        yield "before", are_numbers([value for value in self.before if value is not None])
        for name, spans in (("heads", self.heads), ("tails", self.tails)):
            yield name, all(isinstance(span, list) and len(span) == 2 and are_numbers(span) for span in spans)
        yield "types", all(mmsi.isdecimal() for mmsi in self.types) and are_numbers(self.types.values())
        yield "reads", all(are_reads(of_file) for of_file in self.reads or [])
        yield "tile", all(edge is None or isinstance(edge, (int, float)) for edge in self.tile or [])

    def options(self) -> list[str]:
        """Returns the program's options for the window of the job."""
        return [f"--start={self.start}", f"--ticks={self.ticks}"]

    def checks(self) -> list[tuple[int, int]]:
        """Returns the spans of time whose accepted reports the join compares."""
        return [(first, last) for first, last in [*self.heads, *self.tails]]

    def window(self) -> tuple[int, int]:
        """Returns the start of the window in seconds, and its ticks."""
        return self.start, self.ticks

    def is_part(self, scenario: Scenario) -> bool:
        """Returns whether the window is a part of the whole audit's."""
        return self.whole is not None and self.lines(scenario) != (self.whole[0], self.whole[1])

    def lines(self, scenario: Scenario) -> tuple[int, int]:
        """Returns the first and the last second of the window of lines."""
        return self.start - scenario.gap, self.start + self.ticks * scenario.tick + scenario.gap

    def cut(self, scenario: Scenario) -> Cut | None:
        """Returns the cut of the files' lines that makes the share's log; None if it uses all lines."""
        if not self.is_part(scenario) and self.vessels is None:
            return None
        first, last = self.lines(scenario)
        begin, end = self.whole or (first, last)
        types = {
            mmsi: kind for mmsi, kind in self.types.items() if self.vessels is None or int(mmsi) in set(self.vessels)
        }
        return Cut(first, last, begin, end, scenario.slack, self.before[0], self.before[1], types, self.vessels)

    def words(self) -> str:
        """Returns a description of the share for a message."""
        group = "" if self.subjects is None else f", {len(self.subjects)} subjects from {self.subjects[0]} on"
        tile = "" if self.tile is None else f", tile {self.tile}"
        return f"the share of {self.ticks} ticks from {self.start}{group}{tile}"


def are_numbers(values: Iterable[Any]) -> bool:
    """Returns whether all values are whole numbers."""
    return all(isinstance(value, int) and not isinstance(value, bool) for value in values)


def are_reads(of_file: Any) -> bool:
    """Returns whether a value is a list of reads of a file."""
    return isinstance(of_file, list) and all(
        isinstance(read, list) and len(read) == 4 and read[0] in (SEEK, SKIP, COPY, LINES)
        and are_numbers([read[1], *(at for at in read[2:] if at is not None)]) for read in of_file)


def job_of(told: Any, folder: str = ".") -> Job:
    """Returns the job of a JSON object, with its file names relative to a folder. Raises ValueError if it is wrong."""
    if not isinstance(told, dict):
        raise ValueError("no object")
    wrong = [key for key, value in told.items() if key not in KEYS or not isinstance(value, KEYS[key])]
    missing = [key for key in NEEDED if key not in told]
    if wrong or missing:
        raise ValueError(", ".join(f"`{key}`" for key in wrong + missing) + " is missing or wrong")
    paths = {
        "files": [os.path.join(folder, str(name)) for name in told["files"]],
        "scenario": os.path.join(folder, told["scenario"])
    }
    return Job(**{**told, **paths})


def numbered_lines(path: str) -> Iterator[tuple[int, bytes]]:
    """Yields the non-empty lines of a list of jobs, each with its number."""
    try:
        with open(path, "rb") as source:
            for number, line in enumerate(source, 1):
                if line.strip():
                    yield number, line
    except OSError as error:
        raise Fault(f"cannot read {path}: {reason(error)}") from None


def job_of_line(path: str, number: int, line: bytes) -> Job:
    """Returns the job of a line of a list."""
    try:
        return job_of(json.loads(line), os.path.dirname(os.path.abspath(path)))
    except (ValueError, TypeError) as error:
        raise Fault(f"{path}, line {number}: not a job: {error}") from None


def read_jobs(path: str) -> list[Job]:
    """Returns the jobs of a list, one per line; empty lines are skipped."""
    jobs = [job_of_line(path, number, line) for number, line in numbered_lines(path)]
    if not jobs:
        raise Fault(f"{path}: the list has no job")
    return jobs


def read_job(path: str, wanted: int) -> Job:
    """Returns the job of this number, counted from 1; it does not parse other lines."""
    for place, (number, line) in enumerate(numbered_lines(path), 1):
        if place == wanted:
            return job_of_line(path, number, line)
    raise Fault(f"{path}: the list has no job {wanted}")


class Kept:
    """The folder of results. A result's name is the hash of its inputs: files, scenario, options, vessels and
    program."""

    def __init__(self, folder: str, program: str) -> None:
        try:
            os.makedirs(folder, exist_ok=True)
        except OSError as error:
            raise Fault(f"cannot write {folder}: {reason(error)}; give another folder with --kept") from None
        self.folder, self.programs = folder, programs_of(program)
        self.scenarios: dict[str, Scenario] = {}
        self.sums: dict[str, list[Any]] = {}
        self.told = os.path.join(folder, "sums.json")
        if os.path.exists(self.told):
            try:
                self.sums = dict(json.loads(read_bytes(self.told)))
            except (ValueError, TypeError):
                pass                                    # it computes them again

    def sum(self, path: str) -> str:
        """Returns the hash of a file. It reads the file again if its size or time has changed."""
        path = os.path.realpath(path)
        try:
            about = os.stat(path)
        except OSError as error:
            raise Fault(f"cannot read {path}: {reason(error)}") from None
        state = [about.st_size, about.st_mtime_ns]
        if self.sums.get(path, [])[:2] != state:
            self.sums[path] = state + [sum_of(path)[0]]
            replace(self.told, json.dumps(self.sums, indent=1).encode())
        return str(self.sums[path][2])

    def scenario(self, job: Job) -> Scenario:
        """Returns the scenario of a job, which it reads once."""
        if job.scenario not in self.scenarios:
            self.scenarios[job.scenario] = Scenario(job.scenario)
        return self.scenarios[job.scenario]

    def file_sums(self, job: Job) -> list[str]:
        """Returns the hashes of a job's files. Raises Fault if a file changed after the job was planned."""
        sums = [self.sum(name) for name in job.files]
        for name, wanted, found in zip(job.files, job.sums or sums, sums):
            if wanted != found:
                raise Fault(f"{job.words()}: {name} changed after the jobs were planned: plan again")
        return sums

    def key(self, job: Job) -> str:
        """Returns the hash of everything that a job's result depends on."""
        scenario = self.scenario(job)
        cut = job.cut(scenario)
        inputs = {
            "files": self.file_sums(job), "scenario": scenario.with_subjects(job.subjects), "options": job.options(),
            "cut": cut.text() if cut else None, "checks": job.checks(),
            "program": [self.sum(name) for name in self.programs]
        }
        return hashlib.sha256(json.dumps(inputs, sort_keys=True).encode()).hexdigest()

    def path(self, job: Job) -> str:
        """Returns the path of a job's result."""
        return os.path.join(self.folder, self.key(job) + ".csv")

    def has(self, job: Job) -> bool:
        """Returns whether a job's result exists and is complete."""
        path = self.path(job)
        return os.path.exists(path) and whole_result(read_bytes(path)) is not None

    def keep(self, job: Job, report: bytes) -> None:
        """Writes a job's result, with its checksum as the last line."""
        path = self.path(job)
        try:
            replace(path, report + CHECKSUM + hashlib.sha256(report).hexdigest().encode() + b"\n")
        except OSError as error:
            raise Fault(f"cannot write {path}: {reason(error)}") from None

    def need(self, job: Job) -> Need | None:
        """Returns the resources that a job needed; None if it has no result with them."""
        try:
            with open(self.path(job), "rb") as source:
                source.seek(-min(TAIL, os.fstat(source.fileno()).st_size), os.SEEK_END)
                found = NEED.search(source.read())
        except OSError:
            return None
        return Need(int(found[1]), int(found[2])) if found else None

    def result(self, job: Job) -> str:
        """Returns a job's result without its checksum. Raises Fault with the file if it is incomplete."""
        path = self.path(job)
        report = whole_result(read_bytes(path))
        if report is None:
            raise Fault(f"{path} is damaged or incomplete: run the jobs again to replace it")
        return report.decode("utf-8", "replace")


def whole_result(text: bytes) -> bytes | None:
    """Returns a result without its last line if that is the checksum of the others; None otherwise."""
    begin = text.rfind(b"\n", 0, -1) + 1
    if not text.endswith(b"\n") or text[begin:] != CHECKSUM + hashlib.sha256(text[:begin]).hexdigest().encode() + b"\n":
        return None
    return text[:begin]
