"""Suggests a scenario for a log: window, tick and reference by what the program reads of it, every other number as in
the worked encounters."""
import bisect
import math
import re
import statistics
from collections.abc import Sequence
from dataclasses import dataclass, replace

from colregs.errors import Fault, reason
from colregs.io.logs import sampled
from colregs.io.sentences import ship_place
from colregs.io.tag_blocks import stamp
from colregs.model.earth import iso
from colregs.model.rules import moment, utc
from colregs.run.program import Run, run_text
from colregs.words import count

TICKS = [1, 2, 3, 5, 6, 10, 15, 30, 60]
LONGEST = 20000                                              # ticks of a window at most
REACH = 1200000                                              # 1/10000 minute: how far north or south the plane goes
# the pairs that the program follows; the distances in m that are tried
MOST_PAIRS, WATCHES = 4096, (5000, 3000, 2000, 1500, 1000)
# s: what of a log may lie before or behind the times of these places
MARGIN = 3600
LOOK = """version = 1
window = {{ start = {start}, tick = 60, ticks = {ticks} }}
reference = {{ lat = {lat}, lon = {lon} }}
log = {{ gap = 3600, slack = 3600, max_speed = 1022 }}
detect = {{ watch = 1, risk = 1, clear = 1, horizon = 60, doubt = 0, ahead = 0, reciprocal = 0 }}
act = {{ steady_turn = 0, apparent_turn = 1, steady_speed = 0, apparent_speed = 1 }}
rules = {{ safe = 1, overtake = 1, close = 1, t8 = 0, ta = 0, tl = 0, tw = 0, te = 0 }}
"""
TEXT = """# A scenario to start from, by colregs-scenario. \
The window, the tick and the reference are guessed from the log; every other number is
# that of the worked encounters, whatever the log: go through them. docs/SCENARIO.md describes each key.
version = 1

[window]
start = {start}    # seconds since the Unix epoch: {clock}
tick = {tick}             # s; {interval}
ticks = {ticks}           # steps of a tick each: {length}

[reference]           # where the plane begins, in 1/10000 minute, north and east positive: the middle of the places
lat = {lat}
lon = {lon}

[log]
gap = {gap}             # s: between two reports farther apart than this a vessel is not seen. \
At anchor they come each 3 minutes
slack = 30            # s: a sentence that comes later than this behind the latest is dropped
max_speed = 500       # 50 knots: a report that asks for a faster vessel is dropped as a jump

[detect]
watch = {watch}          # m: two vessels are watched from this distance on
risk = 500            # m: at risk are two that come nearer than this where both go on as they do
clear = 1000          # m: past and clear is drawing apart, without risk, at this distance
horizon = {horizon}         # s: so far ahead risk is looked for
doubt = 0             # 1/10 degree by which the sector of overtaking is widened for vessels in doubt of it
ahead = 60            # 6 degrees: within this each has the other ahead
reciprocal = 60       # 6 degrees: courses so near to opposite are reciprocal

[act]
steady_turn = 50      # 5 degrees: a turn up to this is steering, and more is an alteration
apparent_turn = 200   # 20 degrees: a turn from this on is readily apparent to the other vessel
steady_speed = 10     # 1 knot: a change of speed up to this is none
apparent_speed = 50   # 5 knots: a change of speed from this on is readily apparent

[rules]
safe = 500            # m: a meeting of two vessels keeps to this
overtake = 300        # m: an overtaking vessel that comes nearer does not keep out of the way
close = 800           # m: at risk and nearer than this, the vessel that stands on is in extremis
t8 = {t8}               # s: an alteration is readily apparent within this time
ta = {ta}              # s: action is early within this time from the meeting's beginning
tl = {tl}               # s: in extremis the vessel that stands on acts within this time
tw = {tw}              # s: she is free to act after so long at risk without action of the other
te = {te}              # s: and stays so for as long as this
"""


class Cut(str):
    """A reason for which less is audited than was asked: a shorter window, or a shorter watch."""


@dataclass(frozen=True)
class Asked:
    """The part of a log that is asked for: two moments as words, and vessels by name or MMSI."""

    begin: str | None = None
    end: str | None = None
    vessels: Sequence[str] = ()

    def window(self, first: int, last: int) -> tuple[int, int]:
        """Returns the first and last second, which are the given ones unless others are asked for; raises Fault if none
        lies between."""
        begin = first if self.begin is None else moment(self.begin, first)
        end = last if self.end is None else moment(self.end, begin)
        if begin >= end:
            raise Fault(f"no time lies between --from and --to: {self.begin or iso(begin)} and {self.end or iso(end)}")
        return begin, end


def ends(times: Sequence[int], reasons: list[str], what: str | None) -> tuple[int, int]:
    """Returns the first and last time, except for a few that lie more than a day off, as of a receiver without its
    clock."""
    times = sorted(times)
    few = max(1, len(times) // 1000) if len(times) > 10 else 0
    begin, end = bisect.bisect_left(times, times[few] - 86400), bisect.bisect_right(times, times[-1 - few] + 86400)
    lost = len(times) - (end - begin)
    if lost and what:
        reasons.append(f"{lost} {what} lie more than a day before or after nearly all others, and are skipped")
    return times[begin], times[end - 1]


def where(log: str) -> tuple[int, int]:
    """Returns a place near most of those of the log, to have a plane to look at it."""
    found = [told for told in map(ship_place, sampled(log)) if told]
    if not found:
        with open(log, "rb") as source:
            found = [told for told in map(ship_place, source) if told][:10000]
    if not found:
        raise Fault("no position report is found in the log")
    cells: dict[tuple[int, int], list[tuple[int, int]]] = {}
    for told in found:
        cells.setdefault((told[0] // REACH, told[1] // REACH), []).append(told)
    best = max(cells.values(), key=len)
    held = max(-45000000, min(45000000, int(statistics.median(told[0] for told in best))))
    return held, int(statistics.median(told[1] for told in best))


@dataclass(frozen=True)
class Guess:
    """The numbers of a scenario that are guessed from a log."""

    start: int
    tick: int
    ticks: int
    interval: float | None      # s between reports, or None if nothing shows it
    latitude: int
    longitude: int
    watch: int = WATCHES[0]


class Found:
    """What the program read of the log: places and times of accepted reports, and of each vessel under way the median
    seconds between hers."""

    def __init__(self, done: Run, reference: tuple[int, int]) -> None:
        if done.status != 0:
            raise Fault(f"the program ended with status {done.status}: {done.words}")
        ships, self.times, self.easts, self.norths, speeds, _ = done.columns()
        apart: dict[int, list[int]] = {}
        latest: dict[int, int] = {}
        for mmsi, at, speed in zip(ships, self.times, speeds):
            if mmsi in latest and (len(speed) > 1 or speed >= b"5"):
                apart.setdefault(mmsi, []).append(at - latest[mmsi])
            latest[mmsi] = at
        self.apart = [statistics.median(told) for told in apart.values()]
        self.vessels, self.counts, self.first = len(latest), done.counts(), reference

    def reference(self) -> tuple[int, int]:
        """Returns the middle of the places, in 1/10000 minute, across the date line if it is nearer."""
        cosine = round(math.cos(math.radians((2 * abs(self.first[0]) + 60000) // 120000 / 10)) * 1000000)
        middles = []
        for values, unit in ((self.norths, 1852), (self.easts, 1852 * cosine / 1000000)):
            middles.append([round(middle(values) / unit) for middle in (statistics.median_low, statistics.median_high)])
        latitude, longitude = (math.floor(sum(first + more for more in pair) / 2)
                               for first, pair in zip(self.first, middles))
        return latitude, (longitude + 108000000) % 216000000 - 108000000


def look(log: str, program: str, reasons: list[str]) -> tuple[Found, int | None]:
    """Returns what the program reads in the log, on a plane and in a window that hold most of it; and the last time, or
    None if no line has one."""
    reference, times = where(log), [at for at in map(stamp, sampled(log)) if at is not None]
    first, last = ends(times, reasons, None) if times else (0, 0)
    first = max(0, first - MARGIN)
    ticks = max(1, min(LONGEST, (last + MARGIN - first) // 60 + 1))
    done = run_text(program, "points", LOOK.format(start=first, ticks=ticks, lat=reference[0], lon=reference[1]), log)
    return Found(done, reference), last if times else None


def window(found: Found, latest: int | None, reasons: list[str], asked: Asked) -> tuple[int, int, int, float | None]:
    """Returns start, tick, ticks and the interval between reports, from which the tick is guessed. `latest` is the
    log's last time, if it has any."""
    if latest is None:
        reasons.append("no tag block has a time: every line counts as of the window's start, and a vessel gives one "
                       "point. Give times first (docs/SOURCES.md)")
        return 0, 10, 1, None
    interval = statistics.median(found.apart) if found.apart else 10
    tick = next((k for k in TICKS if k >= interval), 60)
    first, last = ends(found.times, reasons, "reports")
    if found.counts.get("outside", 0) > len(found.times):       # the look has but the beginning of a long log
        last = max(last, latest)
    first, last = asked.window(first, last)
    return first, tick, max(1, (last - first) // tick), interval


def reference(found: Found, reasons: list[str]) -> tuple[int, int]:
    """Returns latitude and longitude of the reference."""
    latitude, longitude = found.reference()
    held = max(-45000000, min(45000000, latitude))
    if held != latitude:
        reasons.append("the middle of the places lies beyond 75 degrees; a reference may not")
    if found.counts.get("far"):
        reasons.append(f"{count(found.counts['far'], 'report lies', 'reports lie')} too far from most others for one "
                       "plane, and will be `far`")
    return held, longitude


def text_of(guess: Guess) -> str:
    """Returns the scenario's text, with the comments in one column."""
    tick, ticks, interval = guess.tick, guess.ticks, guess.interval
    times = {name: -(-value // tick) * tick for name, value in (
        ("horizon", 900), ("t8", 60), ("ta", 120), ("tl", 30), ("tw", 120), ("te", 600))}
    known = ("nothing shows how far reports are apart" if interval is None
             else f"reports of vessels under way are about {interval:g} s apart")
    length = f"{ticks * tick // 60} minutes" if ticks * tick >= 120 else f"{ticks * tick} s"
    text = TEXT.format(start=guess.start, clock=utc(guess.start) + " UTC", tick=tick, interval=known, length=length,
                       ticks=min(ticks, LONGEST), lat=guess.latitude, lon=guess.longitude, gap=max(200, tick),
                       watch=guess.watch, **times)
    return re.sub(r"(?m)^([a-z0-9_]+ = \S+) +# ", lambda line: f"{line[1]:<22}# ", text)


def fitted(guess: Guess, vessels: int, log: str, program: str, reasons: list[str]) -> Guess:
    """Returns the guess with a watch, and if need be a window, in which no more pairs come into contact than the
    program follows."""
    if vessels * (vessels - 1) <= MOST_PAIRS:
        return guess
    for watch in WATCHES:
        guess = replace(guess, watch=watch)
        if fits(guess, log, program):
            break
    whole = guess.ticks
    while guess.ticks > 1 and guess.watch == WATCHES[-1] and not fits(guess, log, program):
        guess = replace(guess, ticks=guess.ticks // 2)
    if guess.ticks < whole:
        reasons.append(Cut(f"the window is cut to {guess.ticks} of {whole} ticks: more than {MOST_PAIRS} pairs come "
                           "into contact. tools/colregs-many audits such a log by subjects and windows"))
    if guess.watch != WATCHES[0]:
        reasons.append(Cut(f"the watch is {guess.watch} m instead of {WATCHES[0]}: more than {MOST_PAIRS} pairs would "
                           "come into contact, so meetings begin later"))
    return guess


def fits(guess: Guess, log: str, program: str) -> bool:
    """Returns whether the program follows all pairs."""
    done = run_text(program, "audit", text_of(guess), log)
    return not (done.status == 7 and "pairs" in done.words)


def guessed(log: str, program: str, reasons: list[str], asked: Asked = Asked()) -> tuple[Guess, int]:
    """Returns the numbers for all of a log with tag blocks, or for the part that is asked for, and how many vessels
    there are.

    The ticks may be more than a scenario takes. Raises a Fault if no position report is found.
    """
    try:
        found, latest = look(log, program, reasons)
    except OSError as error:
        raise Fault(f"cannot read {log}: {reason(error)}") from None
    if not found.times:
        raise Fault("the program accepts no position report of the log")
    start, tick, ticks, interval = window(found, latest, reasons, asked)
    latitude, longitude = reference(found, reasons)
    reasons.append(f"{count(len(found.times), 'position report')} of {count(found.vessels, 'vessel')}")
    return Guess(start, tick, ticks, interval, latitude, longitude), found.vessels


def window_reasons(guess: Guess, ticks: int, asked: Asked = Asked()) -> list[str]:
    """Returns why a guess has its window, tick and reference; `ticks` are those of all of the log."""
    found = []
    if guess.interval is not None:
        begin = ("as asked" if asked.begin or asked.end
                 else f"from the first report {'to the last' if guess.ticks == ticks else 'on, and is cut'}")
        found = [f"the window is {begin}: {guess.ticks * guess.tick} s from {guess.start} on",
                 f"the tick is {guess.tick} s: reports of vessels under way are {guess.interval:g} s apart, by their "
                 "median"]
    return found + ["the reference is the middle of the places: "
                    f"latitude {guess.latitude}, longitude {guess.longitude}"]


def suggested(log: str, program: str) -> tuple[str, list[str]]:
    """Returns a scenario's text for a log with tag blocks that one run takes, and the reasons for what was guessed.

    A reason that is a `Cut` says what of the log is not audited.
    """
    reasons: list[str] = []
    guess, vessels = guessed(log, program, reasons)
    ticks = guess.ticks
    if ticks > LONGEST:
        reasons.append(Cut(f"the log is {ticks} ticks long, and a window may have 20000: this is its beginning. "
                           "tools/colregs-case and tools/colregs-many audit all of it"))
        guess = replace(guess, ticks=LONGEST)
    guess = fitted(guess, vessels, log, program, reasons)
    return text_of(guess), reasons + window_reasons(guess, ticks)


def named(log: str, program: str, vessels: Sequence[str]) -> list[int]:
    """Returns the MMSIs of vessels that are given by MMSI, or by name as the log has it; raises a Fault if a name has
    none or several."""
    names: dict[str, list[int]] = {}
    if not all(word.isdecimal() for word in vessels):
        latitude, longitude = where(log)
        times = [at for at in map(stamp, sampled(log)) if at is not None]
        first, last = ends(times, [], None) if times else (0, 0)
        ticks = max(1, min(LONGEST, (last - first) // 60 + 1))
        done = run_text(program, "audit", LOOK.format(start=first, ticks=ticks, lat=latitude, lon=longitude), log)
        for fields in done.rows("vessel"):
            names.setdefault(b",".join(fields[2:-4]).decode().strip('"').casefold(), []).append(int(fields[1]))
    found = []
    for word in vessels:
        ships = [int(word)] if word.isdecimal() else names.get(word.casefold(), [])
        if len(ships) != 1:
            several = "several vessels have this name: " + ", ".join(map(str, ships))
            raise Fault(f"--vessel {word}: {several if ships else 'no vessel of the log has this name'}")
        found += ships
    return found


def with_subjects(text: str, subjects: Sequence[int]) -> str:
    """Returns a scenario's text with subjects, so that only pairs with one of them are audited; raises a Fault if it
    has such vessels already."""
    if re.search(r"(?m)^\s*subjects\s*=", text):
        raise Fault("the scenario has `subjects` already: change them there instead of giving --vessel")
    version = re.search(r"(?m)^\s*version\s*=.*$", text)
    if version is None:
        raise Fault("the scenario has no line `version`")
    return f"{text[:version.end()]}\nsubjects = {list(subjects)}{text[version.end():]}"
