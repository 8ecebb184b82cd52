"""What a doctor sees in a log itself, before the program reads it: how it is packed, whether it has sentences and
times, who shares an MMSI."""
import collections
import contextlib
import re
import statistics
from collections.abc import Iterator, Mapping

from colregs.io.forms import seconds_of
from colregs.io.logs import sampled, timed
from colregs.io.packing import encoding, packing
from colregs.model.scenario_checks import Finding
from colregs.io.sentences import Message, lone_message, place_of, utc_of
from colregs.io.sources import CUT
from colregs.io.tables import table_of
from colregs.io.tag_blocks import stamp

MOST_SPEED = 102.2 * 1852 / 3600         # metres a second: what no ship makes
Report = tuple[int, int, int]            # time, latitude and longitude
STATIONS = {4: "a base station's time", 9: "an aircraft's report", 11: "a base station's time",
            21: "an aid to navigation's report"}
FLOATS = re.compile(r"\bBUOY|\bBEACON|\bNETS?\b|\bNETMARK|\d+ ?%|\d\d?\.\d ?V\b")
STEADY = 3                               # so many reports of either of two tracks make two ships
CLOCKS = 4, 11                           # messages with the UTC of their sender
OFF = 60                                 # s: a log's clock that is farther off than this is reported
MOVED = 600                              # s: a track without a report for so long has gone over into the other


def form_of(log: str) -> Iterator[Finding]:
    """Yields what keeps the log from being read as it is."""
    packed = packing(log)
    if packed != "plain":
        yield Finding("compressed log", f"the log is compressed by {packed}: tools/colregs-tagged reads it")
        return
    with open(log, "rb") as source:
        head = source.read(65536)
    if not head.strip():
        yield Finding("empty log", "the log has nothing in it")
    elif encoding(head).startswith("utf-16"):
        yield Finding("log in UTF-16", "the log is a text in UTF-16: tools/colregs-tagged reads it")
    elif not any(CUT.search(line) for line in sampled(log)):
        table = next((table for table in map(table_of, head.split(b"\n")[:5]) if table), None)
        words = (f"is a table ({table.name}): tools/colregs-tagged makes sentences of it" if table
                 else "has no AIVDM or AIVDO sentence")
        yield Finding("no sentences", "the log " + words)


def times_of(log: str) -> tuple[int, list[int]]:
    """Returns how many sentences were examined, and the times in their tag blocks."""
    lines = [line for line in sampled(log) if CUT.search(line)]
    return len(lines), [at for at in map(stamp, lines) if at is not None]


class Track:
    """The reports of one MMSI: the latest, and the latest that does not fit to it. If both continue side by side, two
    ships send them."""

    def __init__(self, report: Report) -> None:
        self.main, self.fits, self.most, self.reports = report, [0, 0], 0, 1
        self.second: Report | None = None

    def take(self, report: Report) -> None:
        """Takes a report."""
        self.reports += 1
        to_main, to_second = near(self.main, report), self.second is not None and near(self.second, report)
        if to_main:
            self.fits[0] += self.second is not None and not to_second
            self.main = report
        elif to_second:
            self.fits[1] += 1
            self.second = report
        else:
            self.second, self.fits = report, [0, 0]
        self.most = max(self.most, min(self.fits))
        if self.second and self.second[0] - self.main[0] > MOVED:
            self.main, self.second = self.second, None


def near(one: Report, two: Report) -> bool:
    """Returns whether a ship can have come from one report to the other: roughly, on a sphere without its poles."""
    metres = 1852 / 10000 * max(abs(two[1] - one[1]),
                                min(abs(two[2] - one[2]), 216000000 - abs(two[2] - one[2])) * 0.25)
    return metres <= MOST_SPEED * (abs(two[0] - one[0]) + 10) + 200


class Senders:
    """Who sent what: ships that share an MMSI, and MMSIs that send what no ship sends."""

    def __init__(self, log: str) -> None:
        self.tracks: dict[int, Track] = {}
        self.stations: dict[int, collections.Counter[int]] = collections.defaultdict(collections.Counter)
        self.apart: list[int] = []
        with open(log, "rb") as source:
            for at, line in timed(source):
                message = lone_message(line)
                if message and message.length >= 38:
                    self.take(at or 0, message)
                    if at is not None and message.number(0, 6) in CLOCKS:
                        self.compare(at, message)

    def take(self, at: int, message: Message) -> None:
        """Takes a message."""
        kind, mmsi = message.number(0, 6), message.number(8, 30)
        place = place_of(message)
        if kind in STATIONS:
            self.stations[mmsi][kind] += 1
        elif place and mmsi in self.tracks:
            self.tracks[mmsi].take((at, *place))
        elif place:
            self.tracks[mmsi] = Track((at, *place))

    def compare(self, at: int, message: Message) -> None:
        """Notes how far a line's time is from the UTC in its base station's message."""
        with contextlib.suppress(ValueError):       # a station without a time sends month and day 0
            self.apart.append(at - seconds_of(*utc_of(message)))

    def clock(self) -> Iterator[Finding]:
        """Yields a finding if the log's times are far from the UTC of base stations."""
        apart = round(statistics.median(self.apart)) if self.apart else 0
        if abs(apart) > OFF:
            side = "ahead of" if apart > 0 else "behind"
            yield Finding("clock that is off", f"the log's times are {abs(apart)} s ({abs(apart) / 3600:.2f} hours) "
                          f"{side} the UTC that base stations send in {len(self.apart)} messages")

    def lost(self, points: Mapping[int, int]) -> Iterator[tuple[int, int, int]]:
        """Yields ships most of whose reports are not accepted: MMSI, reports, accepted reports."""
        for mmsi, track in sorted(self.tracks.items()):
            if track.reports >= 10 and 2 * points.get(mmsi, 0) < track.reports:
                yield mmsi, track.reports, points.get(mmsi, 0)

    def shared(self) -> Iterator[Finding]:
        """Yields MMSIs that two ships may share."""
        for mmsi, track in sorted(self.tracks.items()):
            if track.most >= STEADY:
                yield Finding("shared MMSI", f"{mmsi} goes on at two places at a time: two ships may share it")

    def no_ships(self, vessels: Mapping[int, str]) -> Iterator[Finding]:
        """Yields stations that are judged as vessels."""
        for mmsi in sorted(set(self.stations) & set(vessels)):
            kind = max(self.stations[mmsi], key=lambda kind: self.stations[mmsi][kind])
            yield Finding("station that is no ship",
                          f"{mmsi} is judged as a vessel, and sends {STATIONS[kind]} (message {kind})")
        for mmsi, name in sorted(vessels.items()):
            if FLOATS.search(name):
                yield Finding("station that is no ship", f"{mmsi} is judged as a vessel, and is called {name}")
