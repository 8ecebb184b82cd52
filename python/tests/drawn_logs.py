"""Drawn logs: a join of shares against one run of the program over the whole, over many logs that are hard to cut.

    drawn_logs.py PROGRAM [--first N] [--count N] [--jobs N] [--seconds N] [--keep DIR]

Each number draws one log, one scenario and one plan. In the log are shared MMSIs, jumps, repeats, late and future
lines, lines without a stamp, damaged and overlong ones, messages in parts across files and windows, ship types that are
reported once, stopped vessels side by side, and meetings across cuts and edges of tiles. Additional formulas look back,
and windows overlap by little or by half. A join must equal that of one run, or be refused, or each differing row must
be marked or named in the doubts. Status 0 means that all numbers passed.
"""
import argparse
import concurrent.futures
import contextlib
import functools
import gzip
import io
import itertools
import math
import os
import random
import subprocess
import sys
import tempfile
import time
import unittest.mock
from collections import Counter
from collections.abc import Callable, Sequence
from dataclasses import dataclass, field
from typing import Any

if __name__ == "__main__":
    sys.path[:0] = [
        os.path.dirname(os.path.abspath(__file__)),
        os.path.dirname(os.path.dirname(os.path.abspath(__file__)))
    ]
from crowd import stretches  # noqa: E402
from colregs.errors import Fault  # noqa: E402
from colregs.io import sentences  # noqa: E402
from colregs.model.scenario import Scenario  # noqa: E402
from colregs.run.program import found  # noqa: E402
from colregs.shares import cutter, join, places, plans, seen, spans  # noqa: E402
from colregs.shares.jobs import Job, job_of  # noqa: E402
from colregs.shares.reads import Read  # noqa: E402

START, TICK = 1700006400, 10
FIRST_MMSI = 200000001
PROGRESS = 100                      # logs between two lines on standard error
ROWS = 5000                         # bytes of rows of `points` that are read at once
METRE = 1 / 0.1852                  # units of 1/10000 minute at the equator, where the scenarios lie
KNOT = 1852 / 3600                  # m/s
FORMULAS = ("engaged -> clear(150)", "begin -> !O[60,900] begin", "O[0,300] risk -> G[0,60] clear(60)",
            "risk -> H[0,120] seen", "seen", "close(2000) -> F[0,60] engaged",
            "(engaged S[0,600] begin) & opening -> clear(200)", "H[0,240] engaged -> opening",
            "begin -> F[0,120] !engaged", "!seen U[0,120] risk | true")


TROUBLES = ("late", "repeated", "bare", "damaged", "parts", "overlong", "future")


@dataclass(frozen=True)
class Theme:
    """The probabilities of the things that make a log hard to cut. Each theme has much of one thing, so that the others
    seldom hide it."""

    late: float = 0.0
    repeated: float = 0.0
    bare: float = 0.0
    damaged: float = 0.0
    parts: float = 0.0
    overlong: float = 0.0
    future: float = 0.0
    wrong_place: float = 0.0
    ahead: float = 0.0              # a station whose clock is ahead for a while
    shared: float = 0.1             # a second track under the MMSI
    types: float = 0.3
    formulas: tuple[int, ...] = (0, 0, 1, 2)
    ranks: tuple[int, ...] = (0, 1)
    tiles: tuple[tuple[int, int] | None, ...] = (None, None, None, (2, 1), (2, 2))
    moored: tuple[int, ...] = (0, 0, 2, 3)


MIXED = Theme(0.01, 0.02, 0.01, 0.01, 0.01, 0.002, 0.001, 0.004, 0.1)
THEMES = (Theme(), MIXED, Theme(types=0.95, ranks=(1,), shared=0,
                                parts=0.02), Theme(shared=0.6, wrong_place=0.02, repeated=0.05),
          Theme(late=0.05, future=0.004, bare=0.02, ahead=0.5, shared=0),
          Theme(parts=0.15, damaged=0.03, overlong=0.01, types=0.9, ranks=(1,), tiles=((2, 1), (2, 2)),
                shared=0), Theme(formulas=(2, 3), shared=0), Theme(moored=(3, 4), shared=0), MIXED)


@dataclass
class Drawn:
    """A drawn log as lines with their arrival times, its scenario and its plan."""

    lines: list[tuple[float, bytes]] = field(default_factory=list)
    text: str = ""
    wanted: plans.Wanted = field(default_factory=plans.Wanted)
    ticks: int = 0


def scenario_text(ticks: int, gap: int = 200, slack: int = 30, watch: int = 3000, ta: int = 90, te: int = 300) -> str:
    """Returns a scenario over `ticks` steps, to which a line `ranks` and formulas may be added."""
    return f"""version = 2
window = {{ start = {START}, tick = {TICK}, ticks = {ticks} }}
reference = {{ lat = 0, lon = 0 }}
log = {{ gap = {gap}, slack = {slack}, max_speed = 400 }}
detect = {{ watch = {watch}, risk = 300, clear = 600, horizon = 600, doubt = 0, ahead = 60, reciprocal = 60 }}
act = {{ steady_turn = 50, apparent_turn = 200, steady_speed = 10, apparent_speed = 50 }}
[rules]
safe_head_on = 200
safe_overtaking = 150
safe_crossing = 300
safe_other = 100
overtake = 150
close = 300
t8 = 60
ta = {ta}
tl = 30
tw = 60
te = {te}
"""


def draw_scenario(draw: random.Random, ticks: int, theme: Theme) -> str:
    """Draws a scenario over `ticks` steps, with formulas of its own."""
    formulas = draw.sample(FORMULAS, draw.choice(theme.formulas))
    tables = "".join(f'[[formula]]\nname = "own{k}"\ntext = "{text}"\n' for k, text in enumerate(formulas))
    choices: tuple[tuple[int, ...], ...] = ((40, 60, 200), (0, 10, 30), (1500, 3000), (30, 90), (60, 300))
    text = scenario_text(ticks, *(draw.choice(numbers) for numbers in choices))
    return f"{text}ranks = {draw.choice(theme.ranks)}\n{tables}"


def report(mmsi: int, second: float, x: float, y: float, speed: float, course: float, status: int) -> sentences.Fields:
    """Returns the fields of a position report of message 1."""
    units = round(y * METRE), round(x * METRE), round(
        speed * 10), round(course * 10) % 3600, round(course) % 360, int(second) % 60
    return sentences.class_a(mmsi, units, status)


def stamped(at: float, sentence: bytes, station: bytes = b"") -> bytes:
    return sentences.block(START + int(at), station) + sentence


def in_parts(fields: sentences.Fields, key: bytes, channel: bytes, damage: int) -> list[bytes]:
    """Returns the sentences of a message in two parts; `damage` is the number of a part with a wrong checksum."""
    payload, fill = sentences.payload_of(fields)
    cut, made = len(payload) * 2 // 3, []
    for number, (letters, filled) in enumerate(((payload[:cut], 0), (payload[cut:], fill)), 1):
        line = sentences.part(letters, filled, channel=channel, count=2, number=number, sequence=key)
        made.append(line[:-2] + b"%02X" % (int(line[-2:], 16) ^ (number == damage)))
    return made


def voyage(mmsi: int, kind: int) -> sentences.Fields:
    """Returns the fields of message 5 with a ship type."""
    return sentences.voyage(mmsi, f"V{mmsi % 100}", kind, (20, 30, 5, 5), "PORT")


class Log:
    """Draws the lines of a log."""

    def __init__(self, draw: random.Random, seconds: int, theme: Theme) -> None:
        self.draw, self.seconds, self.theme, self.lines = draw, seconds, theme, list[tuple[float, bytes]]()
        chances = [float(getattr(theme, name)) for name in TROUBLES]
        self.upto = [*itertools.accumulate([*chances, 1 - sum(chances)])]

    def add(self, at: float, line: bytes) -> None:
        self.lines.append((at, line))

    def one_line(self, at: float, fields: sentences.Fields) -> None:
        """Adds a message, now and then late, twice, without a stamp, damaged or in parts."""
        draw = self.draw
        name = draw.choices((*TROUBLES, ""), cum_weights=self.upto)[0]
        sentence = sentences.sentence(fields)
        line = stamped(at, sentence)
        if name == "late":
            self.add(at + draw.uniform(5, 90), line)
        elif name == "repeated":
            self.add(at, line)
            self.add(at + draw.uniform(0, 8), stamped(at + draw.choice((0, 1, 5)), sentence, b"s:two"))
        elif name == "bare":
            self.add(at, sentence)
        elif name == "damaged":
            self.add(at, draw.choice((line[:-1] + b"x", b"\\c:1" + line[4:])))
        elif name == "parts":
            self.parts(at, fields)
        elif name == "overlong":
            self.add(at, stamped(at + draw.choice((0, 400, 3000)), sentence + b" " + b"x" * 1100))
            self.add(at, line)
        elif name == "future":
            self.add(at, stamped(at + draw.choice((20, 45, 300, 1500, 10 ** 6)), sentence))
        else:
            self.add(at, line)

    def parts(self, at: float, fields: sentences.Fields) -> None:
        draw = self.draw
        damage = draw.choice((1, 2)) if draw.random() < 4 * self.theme.damaged else 0
        for k, part in enumerate(in_parts(fields, b"%d" % draw.randrange(3), draw.choice((b"A", b"B")), damage)):
            later = k * draw.choice((0, 0.01, 3, 20))
            self.add(at + k * 0.001 + later, stamped(at + later, part) if draw.random() < 0.6 or not k else part)

    def type_of(self, mmsi: int, at: float) -> None:
        """Adds a ship type, by message 5 or 24."""
        kind = self.draw.choice((30, 36, 36, 70, 0))
        if self.draw.random() < 0.5:
            self.parts(at, voyage(mmsi, kind))
        else:
            self.one_line(at, sentences.hull_part(mmsi, kind, (20, 30, 5, 5)))

    def track(self, mmsi: int, x: float, y: float, speed: float, course: float, begin: float, end: float, every: float,
              moored: bool) -> None:
        """Adds the reports of a vessel from a place on, with turns."""
        draw, at = self.draw, begin + self.draw.uniform(0, every)
        status = draw.choice((0, 15, 15, 15, 15, 8, 7, 3))
        turn_at = draw.uniform(begin, end) if draw.random() < 0.5 else end
        back = draw.choice((180, 30, -40, 90))
        before = begin
        while at < end:
            if before < turn_at <= at:
                course = (course + back) % 360
            x += speed * KNOT * (at - before) * math.sin(math.radians(course))
            y += speed * KNOT * (at - before) * math.cos(math.radians(course))
            # a wrong place
            shown = (x + draw.choice((9000, -20000)), y) if draw.random() < self.theme.wrong_place else (x, y)
            self.one_line(at, report(mmsi, at, *shown, speed, course, status))
            before, at = at, at + every * (
                draw.uniform(0.9, 1.1) if moored or draw.random() < 0.98 else draw.uniform(3, 12)
            )


def draw_tracks(draw: random.Random, log: Log) -> None:
    """Draws vessels that cross a common place, some stopped ones there, and some that share an MMSI."""
    seconds, mmsi = log.seconds, FIRST_MMSI
    for _ in range(draw.randrange(3, 8)):
        speed, course, meet = draw.uniform(4, 18), draw.uniform(0, 360), draw.uniform(0, seconds)
        x, y = draw.choice((0, 4000, 9000)) + draw.uniform(-400, 400), draw.uniform(-400, 400)
        begin = max(0.0, meet - draw.uniform(300, 2500))
        way = speed * KNOT * (begin - meet)
        end = min(float(seconds), meet + draw.uniform(300, 2500))
        log.track(mmsi, x + way * math.sin(math.radians(course)), y + way * math.cos(math.radians(course)), speed,
                  course, begin, end, draw.choice((8, 10, 25)), False)
        if draw.random() < log.theme.types:
            log.type_of(mmsi, draw.choice((begin, begin, draw.uniform(begin, end), draw.uniform(0, seconds))))
        if draw.random() < log.theme.shared:
            other = draw.choice((30000.0, 5000.0, 800.0))
            log.track(mmsi, x + other, y, draw.choice((0, 6)), draw.uniform(0, 360), draw.uniform(0, seconds / 2),
                      seconds, draw.choice((10, 30)), False)
        mmsi += 1
    for _ in range(draw.choice(log.theme.moored)):
        log.track(mmsi, draw.uniform(-200, 200), draw.uniform(-200, 200), draw.choice((0, 0.1)), draw.uniform(0, 360),
                  0, seconds, draw.choice((30, 55)), True)
        mmsi += 1


def drawn(number: int, themes: Sequence[Theme] = THEMES) -> Drawn:
    """Returns the log of a number, with its scenario and plan."""
    draw, theme = random.Random(number), themes[number % len(themes)]
    made = Drawn(ticks=draw.randrange(150, 400))
    made.text = draw_scenario(draw, made.ticks, theme)
    log = Log(draw, made.ticks * TICK, theme)
    draw_tracks(draw, log)
    if draw.random() < theme.ahead:
        begin, ahead = draw.uniform(0, log.seconds), draw.choice((40, 1200))
        for at, line in [entry for entry in log.lines if begin < entry[0] < begin + 300][::3]:
            log.add(at + 0.5, stamped(at + ahead, line.rpartition(b"\\")[2]))
    made.lines = sorted(log.lines, key=lambda entry: entry[0])
    every = draw.randrange(45, 140)
    made.wanted = plans.Wanted(None, draw.choice((None, made.ticks)), every,
                               draw.choice((None, None, draw.randrange(420, 900))), draw.choice(
                                   (None, None, None, 2, 3)), draw.choice(theme.tiles))
    return made


@dataclass
class Outcome:
    """The outcome of a number: a word, and the rows that differ without a mark."""

    word: str
    faults: list[str] = field(default_factory=list)
    rows: int = 0
    marked: int = 0


class Results:
    """The results of jobs, computed in this process instead of a pipeline."""

    def __init__(self, scenario: Scenario, program: str) -> None:
        self.of, self.program = scenario, program
        self.texts: dict[tuple[int, ...], str] = {}             # scenarios by their subjects
        self.lines: dict[tuple[str, ...], list[bytes]] = {}     # lines by the names of their files
        self.shares: dict[tuple[Any, ...], tuple[bytes, bytes]] = {}

    def run(self, mode: str, job: Job, log: bytes) -> bytes:
        key = tuple(job.subjects or ())
        if key not in self.texts:
            self.texts[key] = self.of.with_subjects(job.subjects)
        with open(os.path.join(os.path.dirname(self.of.path), "share.toml"), "w", encoding="utf-8") as out:
            out.write(self.texts[key])
        done = subprocess.run([self.program, mode, out.name, *job.options()], input=log, capture_output=True)
        if done.returncode:
            raise Fault(f"status {done.returncode}, {done.stderr.decode()}")
        return done.stdout

    def check_reads(self, job: Job, cut: cutter.Cut, log: bytes) -> None:
        """Compares a share's log with the log made of only the relevant bytes."""
        of_blocks = b"".join(
            cutter.share_of_files(job.files, [[Read(*read) for read in of_file] for of_file in job.reads or []], cut))
        if of_blocks != log:
            raise AssertionError(f"{job.words()}: its log by blocks is another")

    def result(self, job: Job) -> str:
        """Returns the result of a job. Groups of subjects of one share have the same log and the same checks."""
        key = (job.start, job.ticks, *job.files, *(job.vessels or [0]))
        if key not in self.shares:
            self.shares[key] = self.share(job)
        log, checks = self.shares[key]
        return (self.run("audit", job, log) + checks).decode()

    def share(self, job: Job) -> tuple[bytes, bytes]:
        """Returns the log of a job, and the rows that the join needs besides its report."""
        cut = job.cut(self.of)
        if tuple(job.files) not in self.lines:
            self.lines[tuple(job.files)] = read_lines(job.files)
        lines = self.lines[tuple(job.files)]
        log = b"".join(cutter.share_lines(lines, cut) if cut else lines)
        if cut and job.reads is not None and job.start // TICK % 2:
            self.check_reads(job, cut, log)
        if not job.is_part(self.of):
            return log, b""
        points = self.run("points", job, log)
        pieces = (points[k:k + ROWS] for k in range(0, len(points), ROWS))
        return log, b"".join(
            seen.rows_to_keep(pieces, job.checks(), self.of.slack))


def write_cut(files: list[str], cut: cutter.Cut, folder: str, target: str, words: str,
              reads: list[list[list[Any]]] | None = None) -> None:
    """Does the same as `colregs.shares.cuts.write_cut` in this process, because starting another process takes longer
    than everything else."""
    log = cutter.share_lines(read_lines(files), cut) if reads is None else cutter.share_of_files(
        files, [[Read(*read) for read in of_file] for of_file in reads], cut)
    with open(target, "wb") as out:
        out.writelines(log)


def read_lines(files: list[str]) -> list[bytes]:
    """Returns the lines of files, compressed or not."""
    whole = b""
    for name in files:
        with (gzip.open(name) if name.endswith(".gz") else open(name, "rb")) as source:
            whole += source.read()
    return whole.splitlines(True) if b"\r" not in whole else [line + b"\n" for line in whole.split(b"\n")]


def packed(text: bytes, members: int) -> bytes:
    """Returns a text compressed by gzip, in members that start anywhere."""
    return b"".join(
        gzip.compress(text[len(text) * k // members:len(text) * (k + 1) // members], 1) for k in range(members))


def write_files(made: Drawn, folder: str, number: int) -> list[str]:
    """Writes the log in one to three files, some of them compressed; returns their names."""
    draw, count = random.Random(number + 1), 1 + number % 3
    cuts = sorted(draw.randrange(len(made.lines) + 1) for _ in range(count - 1))
    names = []
    for k, (begin, end) in enumerate(zip([0, *cuts], [*cuts, len(made.lines)])):
        text = b"".join(line + b"\n" for _, line in made.lines[begin:end])
        names.append(os.path.join(folder, f"log{k}" + (".gz" if draw.random() < 0.3 else "")))
        with open(names[-1], "wb") as out:
            out.write(packed(text, draw.choice((1, 1, 4))) if names[-1].endswith(".gz") else text)
    return names


def is_named(row: str, summary: join.Summary, marked: list[str]) -> bool:
    """Returns whether the doubts or a marked row of its pair name a row of one run that the join lacks."""
    fields = row.split(",")
    at = 4 if fields[0] == "meeting" else 5
    pair, first, last = (int(fields[1]),
                         int(fields[2])), START + int(fields[at]) * TICK, START + (int(fields[at + 1]) + 1) * TICK
    for doubt in summary.doubts:
        who = {doubt.subject, doubt.other} - {0}
        if doubt.first < last and first < doubt.last and (
                not who or (pair == (doubt.subject, doubt.other) if doubt.other else who <= set(pair))):
            return True
    for other in marked:
        told = other.split(",")
        place = 4 if told[0] == "meeting" else 5
        if told[:3] == fields[:3] and int(told[place]) <= int(fields[at + 1]) and int(fields[at]) <= int(
                told[place + 1]):
            return True
    return False


def tried(number: int, program: str, folder: str) -> Outcome:
    """Draws the log of a number in a folder, and compares the join of its shares with one run."""
    made = drawn(number)
    path = os.path.join(folder, "scenario.toml")
    with open(path, "w", encoding="utf-8") as out:
        out.write(made.text)
    files, scenario, summary = write_files(made, folder, number), Scenario(path), join.Summary()
    # small blocks, so that windows begin and end within and between them
    spans.PIECE = 200 + number % 7 * 900
    try:
        with unittest.mock.patch.object(places, "write_cut", write_cut):
            jobs = [job_of(job) for job in plans.plan(files, made.wanted, scenario, program)]
        lines = join.joined(jobs, Results(scenario, program), scenario, summary)        # type: ignore[arg-type]
        joined = stretches("\n".join(lines))
    except Fault as fault:
        return Outcome("refused: " + " ".join(word for word in str(fault).split() if word.isalpha())[:60])
    whole = jobs[0].whole or [0, 0]
    options = [f"--ticks={(whole[1] - whole[0] - 2 * scenario.gap) // TICK}"]
    done = subprocess.run([program, "audit", path, *options], input=b"".join(read_lines(files)), capture_output=True)
    wanted, marked = stretches(done.stdout.decode()), [row for row in joined if row.endswith((",cut", ",doubt"))]
    faults = [f"not of one run: {row}" for row in joined if row not in wanted and row not in marked]
    faults += [f"missing: {row}" for row in wanted if row not in joined and not is_named(row, summary, marked)]
    faults += [f"twice: {row}" for row, count in Counter(joined).items() if count > 1]
    word = "one window" if len({job.window()
                                for job in jobs}) == 1 else "marked" if marked or summary.doubts else "equal"
    if word != "marked" and joined != wanted and not faults:
        faults = ["the order differs"]
    return Outcome(word, faults, len(joined), len(marked))


Work = tuple[int, str, str | None, float | None]        # a number, the program, the folder, and when to begin no more
Tried = Callable[[int, str, str], Outcome]


def of_number(work: Work, try_number: Tried = tried) -> Outcome | None:
    """Returns the outcome of a number; None if its time was over."""
    number, program, keep, end = work
    if end is not None and time.time() > end:
        return None
    with tempfile.TemporaryDirectory() as folder, contextlib.redirect_stderr(io.StringIO()):
        return try_number(number, program, keep or folder)


def run_numbers(doc: str, try_number: Tried) -> int:
    """Tries the numbers of the command line; returns the exit status."""
    words = argparse.ArgumentParser(description=doc, formatter_class=argparse.RawDescriptionHelpFormatter)
    words.add_argument("program")
    words.add_argument("--first", type=int, default=1)
    words.add_argument("--count", type=int, default=100)
    words.add_argument("--jobs", type=int, default=1, help="logs at a time")
    words.add_argument("--seconds", type=float, help="begin no log after this time")
    words.add_argument("--keep", metavar="DIR", help="leave the files of the last number here")
    given = words.parse_args()
    if given.keep:
        os.makedirs(given.keep, exist_ok=True)
    counts, failed, rows, marked, begin = Counter[str](), 0, 0, 0, time.time()
    end = begin + given.seconds if given.seconds else None
    work = [(number, found(given.program), given.keep, end) for number in range(given.first, given.first + given.count)]
    with concurrent.futures.ProcessPoolExecutor(given.jobs) as pool:
        outcomes = pool.map(functools.partial(of_number, try_number=try_number), work, chunksize=4)
        for (number, *_), outcome in zip(work, outcomes):
            if outcome is None:
                continue
            counts[outcome.word] += 1
            rows, marked, failed = rows + outcome.rows, marked + outcome.marked, failed + bool(outcome.faults)
            if outcome.faults:
                print(f"{number}: {outcome.word}: " + "; ".join(outcome.faults[:4]), flush=True)
            if counts.total() % PROGRESS == 0:
                print(f"{counts.total()} of {given.count} logs, {failed} failed", file=sys.stderr, flush=True)
    print(f"{counts.total()} logs, {rows} rows, {marked} of them marked, {failed} failed, {time.time() - begin:.0f} s: "
          f"{dict(counts)}")
    return 1 if failed or not counts else 0


def main() -> int:
    return run_numbers(__doc__ or "", tried)


if __name__ == "__main__":
    sys.exit(main())
