"""Makes one log of any logs: `gather` writes sentences with tag blocks, sorted by time, and counts each line by the
form in which it was read.

A sentence takes its time from its tag block, otherwise from after its checksum, otherwise from before it. A line
without a time has that of the receiver's own clock (RMC, ZDA) or of the line before, whichever came last, and if there
is neither, that of base stations (message 4). A line that gives nothing is counted too: `aside` if it is known and not
needed, `unread` with an example if it is not understood.
"""
import collections
import os
import re
import shutil
import subprocess
import tempfile
import time
from collections.abc import Callable, Iterable, Iterator, Mapping, Sequence
from dataclasses import asdict, dataclass, field
from typing import IO, Any

from colregs.errors import Fault, reason
from colregs.io import clocks, jsons, tables
from colregs.io.forms import Reading, Times, Unsure
from colregs.io.gpx import Gpx
from colregs.io.packing import TOO_LONG, Part, parts
from colregs.io.receivers import DAMAGED, HEADING, LONGEST_GAP, Receiver, base_time
from colregs.io.sentences import block
from colregs.io.tag_blocks import blocks
from colregs.words import count

SENTENCE = re.compile(rb"![A-Z0-9]{2}VD[MO],[^*!\\]*\*[0-9A-Fa-f]{2}")
TAGGED = re.compile(rb"(\\c:(\d{10})\*[0-9A-F]{2}\\)(![A-Z0-9]{2}VD[MO],[^*!\\]*\*[0-9A-Fa-f]{2})")
LATER_PART = re.compile(rb"![A-Z0-9]{2}VD[MO],[2-9],[2-9],")
CUT = re.compile(rb"![A-Z0-9]{2}VD[MO],")
HEAD = re.compile(rb"\w[\w \"]*(?:[,;\t]\w[\w \"]*)+")
PROSE = re.compile(rb"\s*(?:#|//|--)")
SPREAD = re.compile(rb"\s*(?:[\[\]{}]+,?|\"[^\"]*\"\s*:.*)\s*")
NMEA = re.compile(rb"[$!]([A-Z0-9]{2,6}),")
# of two channels in a minute: more sentences were never heard between two times of a receiver
SLOTS = 4500
DAY = 86400                     # s
LINES, RECEIVER, BASE = (
    "that of the line before",
    "the receiver's (RMC, ZDA or TPV)",
    "that of a base station (message 4)",
)
SAMPLE = 200                    # letters of an example

Counts = collections.Counter[str]
OwnTime = tuple[int, str, bytes]        # a line's own time, the name of its form, and the other fields of its tag block


@dataclass(frozen=True)
class Unread:
    """Lines that were not understood: how many, and one of them."""

    count: int
    example: str


@dataclass
class Gathered:
    """How the logs were read: counts by form, files, first and last time, how many sentences were written, and notes
    for the reader."""

    files: list[Part] = field(default_factory=list)
    first: int | None = None
    last: int | None = None
    forms: Counts = field(default_factory=collections.Counter)
    aside: Counts = field(default_factory=collections.Counter)
    unread: dict[str, Unread] = field(default_factory=dict)
    sentences: int = 0
    back: int = 0               # sentences whose time is before that of an earlier one
    untimed: int = 0            # sentences before the first time of their log
    notes: list[str] = field(default_factory=list)
    own: int = 0                # sentences that are made of own ship's places

    def cannot(self, name: str, example: bytes) -> None:
        """Counts a line that is not understood."""
        known = self.unread.get(name)
        words = known.example if known else example[:SAMPLE].decode("utf-8", "replace")
        self.unread[name] = Unread(1 + (known.count if known else 0), words)

    def as_json(self) -> dict[str, Any]:
        """Returns all of it as values of JSON."""
        return {
            "files": [vars(part) for part in self.files], "first": self.first, "last": self.last,
            "forms": dict(self.forms), "of_no_use": dict(self.aside),
            "not_understood": {name: asdict(unread) for name, unread in self.unread.items()},
            "sentences": self.sentences, "untimed": self.untimed, "notes": self.notes
        }

    @classmethod
    def of_json(cls, told: dict[str, Any]) -> "Gathered":
        """Returns what values of JSON say; raises KeyError or TypeError if they are of something else."""
        return cls([Part(**entry) for entry in told["files"]], told["first"], told["last"],
                   collections.Counter(told["forms"]), collections.Counter(told["of_no_use"]),
                   {name: Unread(**entry) for name, entry in told["not_understood"].items()},
                   told["sentences"], 0, told["untimed"], list(told["notes"]))

    def lines(self) -> int:
        """Returns how many lines were read."""
        return sum(part.lines for part in self.files)

    def words(self) -> Iterator[str]:
        """Yields how the logs were read, as lines of text."""
        for part in self.files:
            packed = "" if part.packed == "plain" else ", compressed by " + part.packed
            encoding = "" if part.encoding == "bytes" else ", in " + part.encoding
            yield f"{part.name}: {count(part.lines, 'line')}{packed}{encoding}"
        examples = {f"{name}, as {told.example}": told.count for name, told in self.unread.items()}
        for verb, counts in (("read", self.forms), ("not needed", self.aside), ("not understood", examples)):
            yield from (f"{verb}: {number} x {name}"
                        for name, number in sorted(counts.items(), key=lambda entry: (-entry[1], entry[0])))
        yield from self.notes


class Log:
    """The log that is written: lines with their times go on as they come, and are sorted at the end where times run
    back."""

    def __init__(self, out: IO[bytes], gathered: Gathered) -> None:
        self.out, self.gathered, self.latest = out, gathered, 0
        self.of_file, self.back = 0, 0          # the latest time of the file that is read; sentences before theirs
        self.days: collections.Counter[int] = collections.Counter()

    def begin_file(self) -> None:
        """Begins another file, whose times need not follow those before."""
        self.of_file = 0

    def put(self, time: int, words: bytes, stamp: bytes | None = None) -> None:
        """Writes a sentence with its time."""
        gathered = self.gathered
        gathered.first = time if gathered.first is None else min(time, gathered.first)
        gathered.sentences += 1
        gathered.back += time < self.latest
        self.back += time < self.of_file
        self.latest, self.of_file = max(time, self.latest), max(time, self.of_file)
        self.days[time // DAY] += 1
        self.out.write(b"%s%s\n" % (stamp or block(time), words))


class Waiting:
    """Sentences without a time between two times: they get the first one if both are near to each other.

    If they are not, or no time follows, as many get it as there usually are between two times. In a gap of a receiver's
    clock none gets it.
    """

    def __init__(self, put: Callable[[int, bytes], None], cannot: Callable[[str, bytes], None]) -> None:
        self.put, self.cannot, self.usual, self.sure = put, cannot, 10, SLOTS
        self.time: int | None = None
        self.clock: str | None = None
        self.held: list[bytes] = []

    def add(self, words: bytes) -> None:
        """Takes a sentence without a time."""
        if len(self.held) < SLOTS:
            self.held.append(words)
        else:
            self.cannot("a sentence too far after the last time", words)

    def doubt(self) -> None:
        """Notes that the receiver has no fix: what follows has the time before only if a next time comes soon."""
        self.sure = min(self.sure, len(self.held))

    def until(self, time: int | None, clock: str | None = None) -> None:
        """Takes the next time and the clock that has it, or None at the end."""
        if self.held:
            self.leave(time)
        self.time, self.clock, self.sure = time, clock, SLOTS

    def leave(self, time: int | None) -> None:
        """Writes the sentences whose time is known, and counts the others."""
        held, self.held = self.held, []
        assert self.time is not None                # sentences wait only after a time
        near = time is not None and 0 <= time - self.time <= LONGEST_GAP
        if near:
            self.usual = max(self.usual, len(held))
        stands_alone = time is None or time < self.time or self.clock == LINES
        known = len(held) if near else min(len(held), self.usual, self.sure) if stands_alone else 0
        for words in held[:known]:
            self.put(self.time, words)
        for words in held[known:]:
            self.cannot("a sentence in a gap between two times", words)


class Reader:
    """Reads the lines of one file into the log."""

    def __init__(self, part: Part, log: Log, gathered: Gathered, untimed: IO[bytes], mmsi: int | None,
                 reading: Reading) -> None:
        self.part, self.log, self.gathered, self.untimed, self.reading = part, log, gathered, untimed, reading
        self.times, self.receiver = Times(reading.offset, reading.date, reading.day_first), Receiver(mmsi)
        self.unknown: str | None = None         # what a head lacks that is none of a table of positions
        self.skipped = 0                        # empty lines and comments
        self.track = Gpx(self.times)
        self.json, self.waiting = jsons.Objects(self.times), Waiting(self.clocked, gathered.cannot)
        self.table: tables.Table | None = None
        self.head: bytes | None = None
        self.previous: int | None = None
        self.apart: collections.Counter[int] = collections.Counter()
        self.by_receiver = False

    def clocked(self, time: int, words: bytes) -> None:
        """Writes a sentence without a time of its own."""
        self.gathered.forms[f"no time of its own: {self.waiting.clock}"] += 1
        self.log.put(time, words)

    def own(self, time: int) -> None:
        """Takes a sentence's own time: parts that follow have it too, and others as long as the next time is near."""
        self.previous = time
        self.waiting.until(time, LINES)

    def read(self, lines: Iterable[bytes]) -> None:
        """Reads the lines of the file."""
        for line in lines:
            found = TAGGED.fullmatch(line)
            if found and found[1] == block(int(found[2])):
                self.own(int(found[2]))
                self.gathered.forms["tag block"] += 1
                self.log.put(int(found[2]), found[3], found[1])
            else:
                self.line(line)
        self.waiting.until(None)

    def line(self, line: bytes) -> None:
        """Reads one line."""
        if line == TOO_LONG:
            self.gathered.cannot("a line of more than a million bytes", b"")
        elif not line.strip(b" \t\0"):
            self.gathered.aside["empty line"] += 1
            self.skipped += 1
        elif self.table and not CUT.search(line):
            self.row(self.table, line)
        elif line.lstrip()[:1] in (b"{", b"[") and self.value(line, None):
            return
        elif CUT.search(line):
            self.sentences(line)
        elif self.track.takes(line):
            self.of_track()
        else:
            self.other(line)

    def of_track(self) -> None:
        """Writes own ship's reports of a line of GPX, if her MMSI is given."""
        for at, report in self.track.found():
            if self.receiver.mmsi is None:
                self.gathered.aside["point of a GPX track, which is own ship's with --mmsi"] += 1
            else:
                self.gathered.forms["point of a GPX track"] += 1
                self.own_ship(at, self.receiver.placed(report, at))

    def other(self, line: bytes) -> None:
        """Reads a line without a sentence: a sentence of the receiver, JSON after a time, a head, or nothing that is
        known."""
        told = self.receiver.take(line)
        if told:
            return self.of_receiver(line, *told)
        at = line.find(b"{")
        if at > 0 and self.value(line[at:], line[:at]):
            return None
        table, nmea = tables.table_of(line, self.reading.columns), NMEA.search(line)
        if table:
            self.table, self.head = table, line
            self.gathered.aside[f"head of a table ({table.name})"] += 1
            if table.unknown:
                self.gathered.notes.append(f"columns that are not read: {', '.join(table.unknown)}")
        elif nmea:
            self.gathered.aside[f"other sentence ({nmea[1].decode()[-3:]})"] += 1
        elif PROSE.match(line):
            self.gathered.aside["comment"] += 1
            self.skipped += 1
        elif self.part.lines == self.skipped + 1 and (HEAD.fullmatch(line) or tables.unknown_head(line)):
            self.unknown = tables.unknown_head(line, self.reading.columns)
            self.gathered.aside["head of a table of sentences"] += 1
        elif self.unknown and not self.gathered.sentences:
            self.gathered.cannot(f"a row of a table whose head is not known: {self.unknown}", line)
        elif SPREAD.fullmatch(line):
            self.gathered.cannot("a line of JSON that is spread over several lines: `jq -c .` joins it", line)
        else:
            self.gathered.cannot("a line with no sentence and no row", line)
        return None

    def of_receiver(self, line: bytes, name: str, time: int | None) -> None:
        """Takes a sentence of the receiver: its time sets the clock; if the line has a time of its own, notes how far
        that is off."""
        if name in DAMAGED:
            self.gathered.cannot(name, line)
            return
        (self.gathered.forms if time is not None or name == HEADING else self.gathered.aside)[name] += 1
        if time is None:
            if name.startswith("RMC"):
                self.waiting.doubt()
            return
        try:
            own = self.own_time(line, line.find(b"$"), line.rfind(b"*") + 3)
        except Unsure:
            own = None
        if own:
            self.apart[round((own[0] - time) / 60) * 60] += 1
        else:
            self.ticks(time)
        if name == "RMC":
            at = own[0] if own else time
            self.own_ship(at, self.receiver.own_report(at))

    def ticks(self, time: int) -> None:
        """Takes a time of the receiver's own clock: from now on it alone counts if a line has none."""
        if not self.by_receiver and self.waiting.clock == BASE:
            self.waiting.until(None)
        self.by_receiver = True
        self.waiting.until(time, RECEIVER)

    def by_base_station(self, words: bytes) -> None:
        """Takes the time of a base station, in a log in which nothing else has one."""
        time = base_time(words) if self.waiting.clock in (None, BASE) else None
        if time is not None:
            self.waiting.until(time, BASE)

    def own_ship(self, time: int, words: bytes | None) -> None:
        """Writes own ship's report."""
        if words:
            self.gathered.own += 1
            self.log.put(time, words)

    def own_time(self, line: bytes, begin: int, end: int) -> OwnTime | None:
        """Returns the time of a line from its tag block, after its sum or before it; or None."""
        before, more = line[:begin], b""
        if b"\\" in before:
            time, more, before = blocks(before)
            if time is not None:
                return time, "tag block", more
        behind = self.times.read(line[end:], True)
        found = behind or self.times.read(before)
        return found and (found[0], f"{found[1]} {'after the checksum' if behind else 'before the sentence'}", more)

    def sentences(self, line: bytes) -> None:
        """Reads each sentence of a line; what follows the first has the time of the first."""
        found = list(SENTENCE.finditer(line))
        if not found:
            self.gathered.cannot("a sentence without its checksum, or cut off", line)
            return
        try:
            own = self.own_time(line, found[0].start(), found[-1].end())
        except Unsure as doubt:
            if self.waiting.clock in (None, LINES) or "tag block" in str(doubt):
                self.gathered.cannot(str(doubt), line)
                return
            own = None
        for each in found:
            self.put(own, each[0])

    def put(self, own: OwnTime | None, words: bytes) -> None:
        """Writes a sentence, or lets it wait for a time."""
        if own:
            self.own(own[0])
            self.gathered.forms[own[1]] += 1
            self.log.put(own[0], words, block(own[0], own[2]) if own[2] else None)
        elif self.previous is not None and LATER_PART.match(words):
            self.gathered.forms[f"no time of its own: {LINES}"] += 1
            self.log.put(self.previous, words)
        else:
            self.previous = None
            self.by_base_station(words)
            self.wait(words)

    def wait(self, words: bytes) -> None:
        """Lets a sentence wait for the next time, or counts it if there was none yet."""
        if self.waiting.time is not None:
            self.waiting.add(words)
        else:
            self.gathered.untimed += 1
            self.untimed.write(words + b"\n")

    def value(self, line: bytes, before: bytes | None) -> bool:
        """Returns whether a line is JSON, and takes what it holds."""
        value = jsons.value_of(line)
        held = jsons.objects(value) if value is not None else []
        if not held:
            return False
        try:
            outer = self.times.read(before) if before else None
        except Unsure:
            outer = None
        for each in held:
            self.held(self.json.read(each), outer[0] if outer else None, line)
        return True

    def held(self, what: jsons.Held, outer: int | None, line: bytes) -> None:
        """Takes an object of JSON."""
        time = what.time if what.time is not None else outer
        if what.form == jsons.FIX and what.time is not None:
            self.gathered.forms[what.form] += 1
            self.ticks(what.time)
            if what.fix and self.receiver.mmsi is not None:
                self.own_ship(what.time, self.receiver.placed(what.fix, what.time))
            return
        words = [found[0] for entry in what.raw for found in SENTENCE.finditer(entry)] + list(what.made)
        if not words and what.aside:
            self.gathered.aside[what.form] += 1
        elif not words:
            self.gathered.cannot(what.form, line)
        for each in words:
            self.put(None if time is None else (time, what.form, b""), each)

    def row(self, table: tables.Table, line: bytes) -> None:
        """Reads a row of a table."""
        if line == self.head:
            self.gathered.aside["head of a table, again"] += 1
            return
        try:
            time, words = table.row(line, self.times)
        except tables.RowFault as fault:
            if "no ship" in str(fault):
                self.gathered.aside[str(fault)] += 1
            else:
                self.gathered.cannot(str(fault), line)
            return
        self.gathered.forms[f"row of {table.name}"] += 1
        for each in words:
            self.log.put(time, each)


def stamped(line: bytes, at: int) -> bytes:
    """Returns a bare sentence with this time, or any other line as it is."""
    found = None if line.startswith(b"\\") else SENTENCE.search(line)
    return block(at) + found[0] if found else line


def told_apart(reader: Reader, name: str, gathered: Gathered) -> None:
    """Notes if the times of a log and those of its receiver lie apart, as with a clock in local time."""
    if reader.receiver.rolled:
        lags = count(reader.receiver.rolled, "time")
        gathered.notes.append(f"{name}: the receiver's date lagged {lags}, and was set forward")
    if not reader.apart:
        return
    apart, lines = reader.apart.most_common(1)[0]
    if apart and 2 * lines > sum(reader.apart.values()):
        hours, minutes = divmod(abs(apart) // 60, 60)
        side, sign = ("ahead of", "+") if apart > 0 else ("behind", "-")
        gathered.notes.append(f"{name}: the lines' times are {side} the receiver's UTC by {hours}:{minutes:02d} hours; "
                              f"give an offset of {sign}{hours:02d}:{minutes:02d}")


def far_off(days: Mapping[int, int]) -> tuple[int, int | None]:
    """Returns how many sentences have times more than a day before or after nearly all others, and one of their
    days."""
    most, seen, kept = sum(days.values()), 0, []
    for day in sorted(days):
        seen += days[day]
        if 1000 * seen > most and 1000 * (seen - days[day]) < 999 * most:
            kept.append(day)
    lost = [day for day in days if not kept[0] - 1 <= day <= kept[-1] + 1]
    return sum(days[day] for day in lost), min(lost, default=None)


def sort(path: str) -> None:
    """Sorts the log by its times; lines of one time keep their order."""
    command = ["sort", "-s", "-k", "1.1,1.13", "-T", os.path.dirname(os.path.abspath(path)), "-o", path, path]
    if subprocess.run(command, env={**os.environ, "LC_ALL": "C"}, stderr=subprocess.DEVNULL).returncode:
        raise Fault(f"{path} cannot be sorted: is there room on the disk")


def gather(paths: Sequence[str], out: str, *, mmsi: int | None = None, offset: int = 0,
           reading: Reading | None = None) -> Gathered:
    """Writes the logs as one at the path `out`; returns what came of them. With an MMSI the receiver's own places
    become own ship's.

    Times without a zone are UTC, less `offset` seconds; `reading` says more of how logs are read. If no line of any log
    has a time, the sentences are written as they are.
    """
    reading = reading or Reading(offset)
    if any(os.path.exists(path) and os.path.exists(out) and os.path.samefile(path, out) for path in paths):
        raise Fault(f"{out} is also an input: name another file for the output")
    gathered = Gathered()
    try:
        with open(out, "wb", buffering=1 << 20) as made, tempfile.TemporaryFile() as untimed:
            log = Log(made, gathered)
            for path in paths:
                read_file(path, log, untimed, mmsi, reading)
            leave_untimed(gathered, untimed, made)
        ended(out, gathered, log, mmsi)
        compare_clocks(out, gathered, reading.align)
    except OSError as error:
        raise Fault(f"cannot write {out}: {reason(error)}") from None
    return gathered


def compare_clocks(out: str, gathered: Gathered, is_aligned: bool) -> None:
    """Notes receivers whose clocks differ, and takes that out of the log if it is asked for."""
    found = clocks.ahead(out) if gathered.first is not None else []
    if found and is_aligned:
        clocks.align(out, {each.name: each.seconds for each in found})
        sort(out)
        gathered.first, gathered.last = clocks.ends(out)
    gathered.notes += [
        f"{clocks.words(each)}{', and was set right' if is_aligned else ': --align sets it right'}" for each in found
    ]


def read_file(path: str, log: Log, untimed: IO[bytes], mmsi: int | None, reading: Reading) -> None:
    """Reads each log in a file."""
    for part, lines in parts(path):
        log.gathered.files.append(part)
        log.begin_file()
        reader = Reader(part, log, log.gathered, untimed, mmsi, reading)
        reader.read(lines)
        if part.is_cut:
            log.gathered.notes.append(f"{part.name} is cut off: it was read as far as it goes, "
                                      f"{count(part.lines, 'line')}")
        told_apart(reader, part.name, log.gathered)


def leave_untimed(gathered: Gathered, untimed: IO[bytes], made: IO[bytes]) -> None:
    """Writes the sentences without a time if no sentence has one; otherwise counts them."""
    untimed.seek(0)
    if gathered.untimed and gathered.first is None:
        shutil.copyfileobj(untimed, made)
    elif gathered.untimed:
        example = untimed.readline().decode("utf-8", "replace")[:SAMPLE].strip()
        gathered.unread["a sentence before the first time of its log"] = Unread(gathered.untimed, example)


def ended(out: str, gathered: Gathered, log: Log, mmsi: int | None) -> None:
    """Sorts the log if necessary, and notes what a user needs to know of the whole."""
    gathered.last = None if gathered.first is None else log.latest
    off, day = far_off(log.days) if gathered.sentences else (0, None)
    if off:
        date = time.strftime("%Y-%m-%d", time.gmtime((day or 0) * DAY))
        gathered.notes.append(f"{count(off, 'sentence has a time', 'sentences have times')} more than a day off nearly "
                              f"all others, as {date}: was a clock not set")
    if gathered.back:
        sort(out)
    if log.back:
        gathered.notes.append(f"{count(log.back, 'sentence was', 'sentences were')} out of order: the log is sorted by "
                              "time")
    if gathered.untimed and gathered.first is None:
        gathered.forms["sentence without a time"] = gathered.untimed
        gathered.notes.append("no line has a time: the log is left without times")
    fixes = gathered.forms["RMC"] + gathered.forms[jsons.FIX]
    if mmsi is None and fixes:
        gathered.notes.append(f"own ship's places stand in {count(fixes, 'line')} (RMC or TPV): with her MMSI they "
                              "become hers")
    if not gathered.sentences and not gathered.untimed:
        gathered.notes.append("no sentence and no row was read")
